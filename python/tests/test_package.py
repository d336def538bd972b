"""The package: answers, refusals, NaN, short buffers, iterators and wrong types; numpy's arrays where it is at hand."""
import array
import math
import os
import re
import unittest
from typing import Any, Callable, Sequence

import brundelak
from brundelak import (_raw, angle, atmos, batch, chain, coords, elementary, list as lists, nutation, radio, residuals, rotation, transit)
from brundelak.coords import EqPoint, GeographPoint
from brundelak.edition import Edition
from brundelak.list import Star
from brundelak.refusal import Refusal

from replay import replay

try:
    import numpy
except ImportError:
    numpy = None  # type: ignore

DAY1, DAY2 = 2451545.0, 2462088.69
STARS = [Star(7, 0, 0), Star(9, 3600000, -3600000, 65, -189)]


def listed(stars: Sequence[Star], empty: int = 0) -> bytearray:
    """A list of these stars, with so many empty places behind them."""
    out, end = bytearray((len(stars) + empty) * lists.RECORD_BYTES), 0
    for star in stars:
        end = lists.put_star(out, end, star)
    return out


class Package(unittest.TestCase):
    def refuses(self, number: int, call: Callable[..., Any], *given: Any) -> None:
        with self.assertRaises(Refusal) as caught:
            call(*given)
        self.assertEqual(caught.exception.number, number)
        self.assertEqual(str(caught.exception), 'refused by %d: %s' % (number, caught.exception.sentence))

    def test_version(self) -> None:
        self.assertEqual('.'.join(map(str, brundelak.version())), _raw.VERSION)

    def test_heading(self) -> None:
        star = chain.chain(0.7165, 0.8592, DAY1, DAY2)
        self.assertEqual(star, EqPoint(0.7253298051590481, 0.8613694812068785))
        self.assertEqual(chain.chain_by(Edition.Crate, 0.7165, 0.8592, DAY1, DAY2), star)
        self.assertNotEqual(chain.chain_by(Edition.Published, 0.7165, 0.8592, 2415020.5, DAY2), chain.chain(0.7165, 0.8592, 2415020.5, DAY2))

    def test_refusals_are_the_headers(self) -> None:
        for number, name, sentence in _raw.REFUSALS:
            one = Refusal.from_number(number)
            assert one is not None
            self.assertEqual((one.number, one.kind, one.sentence), (number, name, sentence))
        self.assertIsNone(Refusal.from_number(0))
        self.assertEqual(Refusal(200).sentence, _raw.UNNAMED)
        self.assertEqual(Refusal.HIGHEST, len(_raw.REFUSALS))
        self.assertEqual({Refusal(3), Refusal(3)}, {Refusal(3)})

    def test_numbers_that_are_refused(self) -> None:
        for x in (math.nan, math.inf, -math.inf):
            for f in (elementary.sin, elementary.sqrt, angle.to_radians, nutation.nutation, atmos.plan_alt):
                self.refuses(1, f, x)
            self.refuses(1, coords.az_frm_eq, 0.0, x, 0.0)
        self.refuses(2, nutation.nutation, 0.0)
        self.refuses(3, elementary.sin, 400001)
        self.refuses(4, elementary.tan, 2.0)
        self.refuses(5, elementary.sqrt, -1.0)
        self.refuses(7, elementary.asin, 1.5)
        self.refuses(14, elementary.atan2, 0.0, -0.0)
        self.refuses(15, transit.rise_culm_set, EqPoint(0.0, -1.5), 0.0, GeographPoint(0.0, 1.5), 0.0)
        self.refuses(16, transit.rise_culm_set, EqPoint(0.0, 1.5), 0.0, GeographPoint(0.0, 1.5), 0.0)
        self.assertEqual(math.copysign(1.0, elementary.sin(-0.0)), -1.0)

    def test_lists(self) -> None:
        made = listed(STARS, 1)
        self.assertEqual([*lists.stars(made)], STARS)
        self.assertEqual([*lists.stars(bytes(made))], STARS)
        self.assertEqual([*lists.stars(memoryview(made))], STARS)
        self.assertEqual(lists.find(made, 9), (1, STARS[1]))
        self.assertIsNone(lists.star(made, 40))
        self.refuses(8, lists.stars, made[1:])
        self.refuses(8, lists.star, made, 80)
        self.refuses(8, lists.star, made, 2**64 - 20)
        self.refuses(10, lists.find, made, 8)
        self.refuses(18, lists.add, made, STARS[0])
        lists.add(made, Star(8, 1, 2))
        self.refuses(19, lists.add, made, Star(10, 1, 2))
        lists.strike(made, 7)
        self.assertEqual([star.number for star in lists.stars(made)], [9, 8])
        lists.gather(made)
        self.assertEqual(lists.find(made, 9)[0], 0)
        before = bytes(made)
        self.refuses(9, lists.put_star, made, 0, Star(1, 1296000000, 0))
        self.refuses(8, lists.put_star, made, 60, STARS[0])
        self.assertEqual(made, before)
        self.assertEqual([*lists.stars(b'')], [])

    def test_widths_and_radio(self) -> None:
        made, sent, back, narrow = listed(STARS), bytearray(100), bytearray(40), bytearray(24)
        length = radio.list_to_radio(made, sent)
        self.assertEqual(radio.accept(sent[:length]), 2)
        self.assertEqual(radio.open(sent), (2, 2))
        self.assertEqual(radio.star(sent, 2)[0], STARS[0])
        self.assertEqual(radio.radio_to_list(sent[:length], back), 40)
        self.assertEqual(back, made)
        self.refuses(13, radio.accept, sent)
        self.refuses(13, radio.accept, b'')
        self.refuses(8, radio.radio_to_list, sent[:length], back[1:])
        self.refuses(17, lists.list_20_to_12, made, narrow)
        self.assertEqual(lists.list_20_to_12(listed(STARS[:1]), narrow), 12)
        self.assertEqual(lists.list_12_to_20(narrow[:12], back), 20)
        self.assertEqual(back[:20], listed(STARS[:1]))
        end = radio.put_star(sent, radio.put_head(sent, 0, 1), STARS[1])
        self.assertEqual(radio.star(sent, 2), (STARS[1], end))
        self.refuses(8, radio.put_head, sent, 0, 3001)
        self.refuses(8, radio.put_star, bytearray(end - 1), 2, STARS[1])

    def test_batch(self) -> None:
        made = listed(STARS, 1)
        status, asc, dec = bytearray([99] * 4), array.array('d', [99.0] * 4), array.array('d', [99.0] * 4)
        tally = batch.batch(made, DAY1, DAY2, status, asc, dec)
        self.assertEqual([*status], [0, 0, 10, 99])
        self.assertEqual((len(tally), tally[0], tally[10]), (batch.COUNTS, 2, 1))
        places = [*batch.places(status[:3], asc, dec)]
        self.assertEqual(places[0], chain.chain(0.0, 0.0, DAY1, DAY2))
        self.assertEqual(places[2], Refusal(10))
        self.assertEqual(batch.reduced(made, DAY1, DAY2), [*zip(STARS, places)])
        kept = bytes(status), asc.tobytes(), dec.tobytes()
        self.refuses(1, batch.batch, made, math.nan, DAY2, status, asc, dec)
        self.refuses(2, batch.batch, made, DAY1, 0.0, status, asc, dec)
        self.refuses(8, batch.batch, made, DAY1, DAY2, status, asc, memoryview(dec)[2:])
        self.refuses(8, batch.reduced, made[1:], DAY1, DAY2)
        self.refuses(8, batch.reduced, bytes(1 << 20), DAY1, DAY2)
        self.assertEqual((bytes(status), asc.tobytes(), dec.tobytes()), kept)
        self.assertEqual(batch.tally_raise(tally, 10)[10], 2)
        self.refuses(9, batch.tally_raise, tally, 20)
        self.refuses(8, batch.tally_raise, [60000] * batch.COUNTS, 3)

    def test_residuals(self) -> None:
        rows = [[1.0, 2.0, 3.0], [0.1, 0.2, 0.3], [1.000001, 2.000001, 2.999998], [0.1, 0.1, 0.1]]

        def part(first: int, last: int) -> Any:
            return residuals.residuals(bytes(last - first), *(array.array('d', row[first:last]) for row in rows))

        whole, first, rest = part(0, 3), part(0, 1), part(1, 3)
        self.assertEqual((first[0].merge(rest[0], 1), first[1].merge(rest[1], 1)), whole)
        self.assertEqual(whole[0].count, 3)
        self.assertIsNone(residuals.Sheet().mean())
        self.assertIsInstance(whole[0].root_mean_square(), float)
        three = [array.array('d', row) for row in rows]
        self.refuses(8, residuals.residuals, bytes(1), *three)
        self.refuses(1, residuals.residuals, bytes(3), *three[:3], array.array('d', [0.0, math.nan, 0.0]))
        self.refuses(3, residuals.residuals, b'\5\5\5', *three[:3], array.array('d', [0.0, 65.0, 0.0]))

    def test_wrong_types(self) -> None:
        made = listed(STARS)
        for x in ('1', None, [], 1j):
            self.assertRaises(TypeError, elementary.sin, x)
        self.assertRaises(TypeError, lists.find, made, 1.5)
        self.assertRaises(OverflowError, lists.find, made, 2**32)
        self.assertRaises(OverflowError, lists.find, made, -1)
        self.assertRaises(OverflowError, lists.add, made, Star(1, 0, 2**31))
        self.assertRaises(TypeError, lists.star, 'text', 0)
        self.assertRaises(TypeError, lists.gather, bytes(made))
        self.assertRaises(TypeError, lists.gather, memoryview(made)[::2])
        self.assertRaises(TypeError, batch.batch, made, DAY1, DAY2, bytearray(2), array.array('f', [0.0, 0.0]), array.array('d', [0.0, 0.0]))
        self.assertRaises(TypeError, batch.batch, made, DAY1, DAY2, bytearray(2), [0.0, 0.0], array.array('d', [0.0, 0.0]))
        self.assertRaises(ValueError, batch.tally_raise, [1, 2], 3)

    def test_memory_lent_twice(self) -> None:
        made, status, asc = listed(STARS), bytearray(2), array.array('d', [7.0, 7.0])
        self.assertRaises(ValueError, batch.batch, made, DAY1, DAY2, status, asc, asc)
        self.assertRaises(ValueError, lists.list_20_to_12, made, made)
        self.assertRaises(ValueError, lists.list_20_to_12, memoryview(made)[:20], memoryview(made)[19:])
        self.assertEqual(asc, array.array('d', [7.0, 7.0]))
        self.assertEqual(lists.list_20_to_12(memoryview(made)[:20], memoryview(made)[20:]), 12)
        once = array.array('d', [1.0, 2.0])
        self.assertEqual(residuals.residuals(bytes(2), once, once, once, once)[0].sum, 0)

    @unittest.skipIf(numpy is None, 'numpy is not at hand')
    def test_numpy(self) -> None:
        made = listed(STARS, 1)
        status, asc, dec = numpy.zeros(3, numpy.uint8), numpy.zeros(3), numpy.zeros(3)
        tally = batch.batch(numpy.frombuffer(made, numpy.uint8), DAY1, DAY2, status, asc, dec)
        self.assertEqual((tally[0], [*status]), (2, [0, 0, 10]))
        self.assertEqual([*batch.places(status, asc, dec)][:2], [place for _, place in batch.reduced(made, DAY1, DAY2)])
        apart = numpy.zeros((3, 2))
        self.assertRaises(TypeError, batch.batch, made, DAY1, DAY2, status, apart[:, 0], dec)
        self.assertRaises(TypeError, batch.batch, made, DAY1, DAY2, status, asc.astype('>f8'), dec)
        both = numpy.array([[1.0, 2.0, 3.0], [0.1, 0.2, 0.3]]).T
        self.assertEqual(residuals.residuals(status, both[:, 0], both[:, 1], both[:, 0].copy(), both[:, 1].copy())[0].sum, 0)

    def test_rotation(self) -> None:
        made = bytearray(2 * lists.RECORD_BYTES)
        lists.add(made, Star(7, 1000, 2000))
        (star, place), = rotation.rotated(made, DAY1, DAY2)
        reduced = batch.reduced(made, DAY1, DAY2)[0][1]
        assert isinstance(place, EqPoint) and isinstance(reduced, EqPoint)
        self.assertEqual(star.number, 7)
        self.assertTrue(0 < abs(place.asc - reduced.asc) < 1e-3 and 0 < abs(place.dec - reduced.dec) < 1e-3)
        self.assertEqual(rotation.rotated(made, DAY1, DAY1), rotation.rotated_by(Edition.Published, made, DAY1, DAY1))
        status, asc, dec = bytearray(2), array.array('d', [5.0, 5.0]), array.array('d', [5.0, 5.0])
        self.assertEqual(rotation.rotate(made, DAY1, DAY2, status, asc, dec)[10], 1)
        self.assertEqual((asc[0], [*status]), (place.asc, [0, 10]))
        self.refuses(8, rotation.rotate, made, DAY1, DAY2, status, asc, dec[:1])
        self.refuses(1, rotation.rotated, made, float('nan'), DAY2)

    def test_sample(self) -> None:
        with open(os.environ['BRUNDELAK_SAMPLE'], encoding='utf-8') as file:
            sample = file.read().split('\n')
        done = replay(sample)
        of_numbers = [name for name, (_, takes) in _raw.FUNCTIONS.items()
                      if takes and all('double' in sort and many != 'slice' for sort, _, many in takes)]
        self.assertEqual((done.seen['differing'], done.seen['functions']), (0, len(of_numbers)))
        self.assertTrue(done.seen['calls'] > 6000 and done.seen['lists'] and done.seen['refused'] > 1000)
        spoilt = [line if re.match('#|list|radio', line) else re.sub(r' = 0(.*)(\d)$', lambda found: ' = 0%s%d' % (found[1], (int(found[2]) + 1) % 10), line)
                  for line in sample]
        self.assertGreater(replay(spoilt).seen['differing'], 2500)


if __name__ == '__main__':
    unittest.main()
