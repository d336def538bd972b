"""replay.py SAMPLE: the stored sample by the functions of the package: calls, each with what the supplied Rust or a rule written a second time
answers, in bits. Prints how many differ; fails where one does, or where the sample is damaged."""
import array
import dataclasses
import struct
import sys
from typing import Any, Callable, Dict, List, Optional, Sequence, Tuple

import brundelak
from brundelak import _raw, angle, batch, elementary, heading, list as lists, precess, radio, residuals
from brundelak._library import status_of
from brundelak.coords import EclPoint, EqPoint, GeographPoint
from brundelak.edition import Edition
from brundelak.refusal import Refusal

MODULES = [getattr(brundelak, name) for name in brundelak.__all__ if name.islower() and name != 'version']
OTHERS: Dict[str, Callable[..., Any]] = {
    'sine': elementary.sin, 'cosine': elementary.cos, 'tangent': elementary.tan, 'arctangent': elementary.atan2, 'arcsine': elementary.asin,
    'root': elementary.sqrt, 'limit_to_two_pi': angle.limit_to_two_PI, 'precess_eq_coords_fk5': precess.precess_eq_coords_FK5,
    'precess_eq_coords_fk5_published': lambda *a: precess.precess_eq_coords_FK5_by(Edition.Published, *a)}
# those that take points, of the header's numbers
POINTS: Dict[str, Callable[..., Tuple[Any, ...]]] = {
    'nutation_in_eq_coords': lambda a, d, *rest: (EqPoint(a, d), *rest),
    'stell_aberr_in_eq_coords': lambda a, d, *rest: (EqPoint(a, d), *rest),
    'topocent_eq_coords': lambda a, d, p, l, b, *rest: (EqPoint(a, d), p, GeographPoint(l, b), *rest),
    'topopcent_ecl_coords': lambda a, d, p, l, b, *rest: (EclPoint(a, d), p, GeographPoint(l, b), *rest),
    'rise_culm_set': lambda a, d, s, l, b, *rest: (EqPoint(a, d), s, GeographPoint(l, b), *rest)}


def held(name: str) -> Optional[Callable[..., Any]]:
    """The package's function of a name, which stands in one of its modules."""
    return next((getattr(one, name) for one in MODULES if hasattr(one, name)), None)


def flat(answer: Any) -> List[float]:
    return [answer] if isinstance(answer, float) else [x for one in answer for x in flat(one)]


def double(word: str = '') -> float:
    """Bits in hexadecimal, without the zeros at the end."""
    return float(struct.unpack('>d', bytes.fromhex(word.ljust(16, '0')[:16]))[0])


def spelt(digits: str = '') -> bytes:
    return b'' if digits == '-' else bytes.fromhex(digits)


def alike(a: Sequence[float], b: Sequence[float]) -> bool:
    return array.array('d', a).tobytes() == array.array('d', b).tobytes()


def tried(call: Callable[[], Any]) -> Tuple[int, Any]:
    """The status of a call that answers, or of its refusal; and the answer."""
    try:
        return 0, call()
    except Refusal as why:
        return why.number, None


def signed(words: Sequence[str]) -> List[int]:
    """A star's fields: two of them without a sign, three with one."""
    return [int(word) % 2**32 if i < 2 else (int(word) + 2**31) % 2**32 - 2**31 for i, word in enumerate(words)]


class Replay:
    def __init__(self) -> None:
        self.bytes = bytearray()
        self.raw: set = set()
        self.seen = dict.fromkeys(('calls', 'functions', 'lists', 'answered', 'refused', 'differing'), 0)

    def numbers(self, name: str) -> Callable[[List[float]], List[float]]:
        """What a function of the package answers to the numbers that the header's takes."""
        plain = name[:-len('_published')] if name.endswith('_published') else name
        by = held(plain + '_by')
        f = OTHERS.get(name) or (held(name) if plain == name else by and (lambda *a: by(Edition.Published, *a)))
        points = POINTS.get(plain, lambda *a: a)
        if f is not None:
            known = f
            return lambda given: flat(known(*points(*given)))
        self.raw.add(name)

        def called(given: List[float]) -> List[float]:
            status, answers = status_of('brundelak_' + name, *given)
            if status != 0:
                raise Refusal(status)
            return answers
        return called

    def star(self, call: Callable[[Any, int], Any], words: List[str]) -> bool:
        status, answer = tried(lambda: call(self.bytes, int(words[0])))
        want = [int(word) for word in words[3:]]
        if status == 0 and answer is None:
            status = _raw.END
        self.status = status
        return status == int(words[2]) and (status != 0 or [*answer[0], answer[1]] == want)

    def find(self, words: List[str]) -> bool:
        self.status, answer = tried(lambda: lists.find(self.bytes, int(words[0])))
        want = [int(word) for word in words[3:]]
        return self.status == int(words[2]) and (self.status != 0 or [answer[0], *answer[1]] == [want[0], int(words[0]), *want[1:]])

    def batched(self, name: str, words: List[str]) -> bool:
        """A batch of either edition, and whatever else takes and answers what it does."""
        records = len(self.bytes) // lists.RECORD_BYTES
        status, asc, dec = bytearray(b'\xa5' * records), array.array('d', [-7.0]) * records, array.array('d', [-7.0]) * records
        before = bytes(status), asc.tobytes(), dec.tobytes()
        days = double(words[0]), double(words[1])
        plain = name[:-len('_published')] if name.endswith('_published') else name
        by = held(plain + '_by')
        if by is not None:
            known, edition = by, Edition.Crate if plain == name else Edition.Published
            self.status, tally = tried(lambda: known(edition, self.bytes, *days, status, asc, dec))
        else:
            self.raw.add(name)
            self.status, (tally,) = status_of('brundelak_' + name, self.bytes, *days, status, asc, dec)
        if self.status != int(words[3]):
            return False
        if self.status != 0:
            return (bytes(status), asc.tobytes(), dec.tobytes()) == before
        rest, counts, agrees = iter(words[4:]), [0] * batch.COUNTS, True
        for i in range(records):
            one = int(next(rest))
            place = (double(next(rest, '')), double(next(rest, ''))) if one == 0 else (0.0, 0.0)
            counts[one] += 1
            agrees = agrees and status[i] == one and alike((asc[i], dec[i]), place)
        return agrees and tally == counts

    def written(self, name: str, words: List[str]) -> bool:
        """A call that writes into a buffer."""
        room = bytearray(b'\xa5' * int(words[0]))
        end = words.index('=')
        place = int(words[1]) if end > 1 else 0
        want, text = bytearray(room), spelt(words[end + 2] if len(words) > end + 2 else '')
        if name == 'radio_put_head':
            self.status, after = tried(lambda: radio.put_head(room, place, int(words[2])))
        elif name in ('put_star', 'radio_put_star'):
            put = lists.put_star if name == 'put_star' else radio.put_star
            self.status, after = tried(lambda: put(room, place, lists.Star(*signed(words[2:end]))))
        else:
            move = getattr(lists, name, None) or getattr(radio, name)
            self.status, after = tried(lambda: move(self.bytes, room))
        if int(words[end + 1]) == 0:
            want[place:place + len(text)] = text
        return self.status == int(words[end + 1]) and (self.status != 0 or after == place + len(text)) and room == want

    def edited(self, name: str, words: List[str]) -> bool:
        """A call that edits the list where it stands."""
        end = words.index('=')
        given, status = signed(words[:end]), int(words[end + 1])
        want = bytearray(spelt(words[end + 2] if len(words) > end + 2 else '')) if status == 0 else bytearray(self.bytes)
        if name == 'strike':
            self.status, _ = tried(lambda: lists.strike(self.bytes, given[0]))
        elif name == 'add':
            self.status, _ = tried(lambda: lists.add(self.bytes, lists.Star(*given)))
        else:
            self.status, _ = tried(lambda: lists.gather(self.bytes))
        agrees = self.status == status and self.bytes == want
        self.bytes = want
        return agrees

    def sheets(self, words: List[str]) -> bool:
        lens, rest = [int(word) for word in words[:5]], words[6:]
        angles = []
        for count in lens[1:]:
            angles.append(array.array('d', [double(word) for word in rest[:count]]))
            rest = rest[count:]
        self.status, answer = tried(lambda: residuals.residuals(spelt(words[5]), *angles))
        figures = [figure for sheet in answer or () for figure in dataclasses.astuple(sheet)]
        return self.status == int(rest[1]) and (self.status != 0 or figures == [int(word) for word in rest[2:]])

    def sight(self, name: str, words: List[str]) -> bool:
        """A star's heading, in either edition."""
        edition = Edition.Published if name.endswith('_published') else Edition.Crate
        star = lists.Star(1, *(int(word) for word in words[:4]))
        day1, day2, long, lat = (double(word) for word in words[4:8])
        self.status, answer = tried(lambda: heading.heading_by(edition, star, day1, day2, GeographPoint(long, lat)))
        return self.status == int(words[9]) and (self.status != 0 or alike(answer, [double(word) for word in words[10:]]))

    def mean(self, words: List[str]) -> bool:
        """The mean of headings, and its sheet."""
        end = 1 + int(words[0])
        self.status, answer = tried(lambda: heading.mean_heading(array.array('d', [double(word) for word in words[1:end]])))
        if self.status != 0 or words[end + 1] != '0':
            return self.status == int(words[end + 1])
        return alike([answer.mean], [double(words[end + 2])]) and list(dataclasses.astuple(answer.sheet)) == [int(word) for word in words[end + 3:]]

    def agrees(self, name: str, words: List[str]) -> bool:
        shape = _raw.FUNCTIONS['brundelak_batch']
        if name in ('star', 'radio_star'):
            return self.star(lists.star if name == 'star' else radio.star, words)
        if name == 'find':
            return self.find(words)
        if _raw.FUNCTIONS.get('brundelak_' + name) == shape:
            return self.batched(name, words)
        if name in ('radio_open', 'radio_accept'):
            self.status, answer = tried(lambda: radio.open(self.bytes) if name == 'radio_open' else (radio.accept(self.bytes),))
            return self.status == int(words[1]) and (self.status != 0 or list(answer) == [int(word) for word in words[2:]])
        if '_to_' in name or name in ('put_star', 'radio_put_head', 'radio_put_star'):
            return self.written(name, words)
        if name in ('strike', 'add', 'gather'):
            return self.edited(name, words)
        if name == 'residuals':
            return self.sheets(words)
        if name in ('heading', 'heading_published'):
            return self.sight(name, words)
        if name == 'mean_heading':
            return self.mean(words)
        words = [name, *words]
        end = words.index('=')
        self.status, answer = tried(lambda: self.f([double(word) for word in words[:end]]))
        return self.status == int(words[end + 1]) and (self.status != 0 or alike(answer, [double(word) for word in words[end + 2:]]))

    def line(self, text: str) -> None:
        words = text.split()
        if not words or text.startswith('#'):
            return
        name, rest = words[0], words[1:]
        if name in ('list', 'radio'):
            self.bytes = bytearray(spelt(rest[0] if rest else ''))
            self.seen['lists'] += 1
        elif '=' not in words:
            self.f = self.numbers(name)
            self.seen['functions'] += 1
        else:
            self.seen['calls'] += 1
            agrees = self.agrees(name, rest)
            self.seen['differing' if not agrees else 'answered' if self.status == 0 else 'refused'] += 1


def replay(lines: Sequence[str]) -> Replay:
    one = Replay()
    for line in lines:
        one.line(line)
    return one


if __name__ == '__main__':
    done = replay(open(sys.argv[1], encoding='utf-8').read().split('\n'))
    said = ', by the raw boundary alone %s' % ' '.join(sorted(done.raw)) if done.raw else ''
    print('replay: %(calls)d calls of the sample (%(functions)d functions, %(lists)d lists; %(answered)d answered, %(refused)d refused' % done.seen +
          said + '), differing %(differing)d' % done.seen)
    sys.exit(0 if done.seen['calls'] and done.seen['functions'] and done.seen['lists'] and not done.seen['differing'] else 1)
