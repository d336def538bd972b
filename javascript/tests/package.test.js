// The package: answers, refusals, NaN, short slices, iterators and wrong types.
import assert from 'node:assert/strict';
import { readFileSync } from 'node:fs';
import test from 'node:test';
import * as brundelak from '../index.js';
import { figures, functions, refusals } from '../raw.js';
import { replay } from './replay.js';

const { angle, atmos, batch, chain, coords, elementary, list, nutation, precess, radio, residuals, rotation, transit, Edition, Refusal } =
  brundelak;
const [DAY1, DAY2] = [2451545.0, 2462088.69];
const stars = [list.still(7, 0, 0), { ...list.still(9, 3600000, -3600000), asc_rate: 65, dec_rate: -189 }];

/** A list of these stars, with so many empty places behind them. */
function listed(some, empty = 0) {
  const bytes = new Uint8Array((some.length + empty) * list.RECORD_BYTES);
  let end = 0;
  for (const one of some) end = list.put_star(bytes, end, one);
  return bytes;
}

/** The call is refused by the number, and says so. */
function refuses(number, call) {
  assert.throws(call, (why) => why instanceof Refusal && why.number === number && why.message === `refused by ${number}: ${why.sentence}`);
}

test('the version is the header\'s', () => assert.equal(brundelak.version().join('.'), figures.VERSION));

test('a heading', () => {
  const star = chain.chain(0.7165, 0.8592, DAY1, DAY2);
  assert.deepEqual(star, { asc: 0.7253298051590481, dec: 0.8613694812068785 });
  assert.deepEqual(chain.chain_by(Edition.Crate, 0.7165, 0.8592, DAY1, DAY2), star);
  assert.notDeepEqual(chain.chain_by(Edition.Published, 0.7165, 0.8592, 2415020.5, DAY2), chain.chain(0.7165, 0.8592, 2415020.5, DAY2));
  assert.throws(() => chain.chain_by('None', 0.7165, 0.8592, DAY1, DAY2), TypeError);
});

test('each refusal has the header\'s number, name and sentence', () => {
  for (const [number, name, sentence] of refusals) {
    const one = Refusal.from_number(number);
    assert.deepEqual([one.number, one.kind, one.sentence], [number, name, sentence]);
  }
  assert.equal(Refusal.from_number(0), null);
  assert.equal(Refusal.from_number(200).sentence, 'the call was refused');
  assert.equal(Refusal.HIGHEST, refusals.length);
});

test('NaN, infinities and what is out of range are refused', () => {
  for (const x of [NaN, Infinity, -Infinity]) {
    for (const f of [elementary.sin, elementary.sqrt, angle.to_radians, nutation.nutation, atmos.plan_alt]) refuses(1, () => f(x));
    refuses(1, () => coords.az_frm_eq(0, x, 0));
  }
  refuses(2, () => nutation.nutation(0));
  refuses(3, () => elementary.sin(400001));
  refuses(4, () => elementary.tan(2));
  refuses(5, () => elementary.sqrt(-1));
  refuses(7, () => elementary.asin(1.5));
  refuses(14, () => elementary.atan2(0, -0));
  refuses(15, () => transit.rise_culm_set({ asc: 0, dec: -1.5 }, 0, { long: 0, lat: 1.5 }, 0));
  refuses(16, () => transit.rise_culm_set({ asc: 0, dec: 1.5 }, 0, { long: 0, lat: 1.5 }, 0));
  assert.ok(Object.is(elementary.sin(-0), -0));
});

test('lists are read, written, edited and walked', () => {
  const bytes = listed(stars, 1);
  assert.deepEqual([...list.stars(bytes)], stars);
  assert.deepEqual(list.find(bytes, 9), [1, stars[1]]);
  assert.equal(list.star(bytes, 40), null);
  refuses(8, () => list.stars(bytes.subarray(1)));
  refuses(8, () => list.star(bytes, 80));
  refuses(8, () => list.star(bytes, 18446744073709551600n));
  refuses(10, () => list.find(bytes, 8));
  refuses(18, () => list.add(bytes, stars[0]));
  list.add(bytes, list.still(8, 1, 2));
  refuses(19, () => list.add(bytes, list.still(10, 1, 2)));
  list.strike(bytes, 7);
  assert.deepEqual([...list.stars(bytes)].map((one) => one.number), [9, 8]);
  list.gather(bytes);
  assert.equal(list.find(bytes, 9)[0], 0);
  const before = bytes.slice();
  refuses(9, () => list.put_star(bytes, 0, list.still(1, 1296000000, 0)));
  refuses(8, () => list.put_star(bytes, 60, stars[0]));
  assert.deepEqual(bytes, before);
});

test('widths and the radio form, there and back', () => {
  const bytes = listed(stars);
  const [sent, back, narrow] = [new Uint8Array(100).fill(7), new Uint8Array(40), new Uint8Array(24)];
  const length = radio.list_to_radio(bytes, sent);
  assert.equal(radio.accept(sent.subarray(0, length)), 2);
  assert.deepEqual(radio.open(sent), [2, 2]);
  assert.deepEqual(radio.star(sent, 2)[0], stars[0]);
  assert.equal(radio.radio_to_list(sent.subarray(0, length), back), 40);
  assert.deepEqual(back, bytes);
  refuses(13, () => radio.accept(sent));
  refuses(13, () => radio.accept(new Uint8Array(0)));
  refuses(8, () => radio.radio_to_list(sent.subarray(0, length), back.subarray(1)));
  refuses(17, () => list.list_20_to_12(bytes, narrow));
  assert.equal(list.list_20_to_12(listed([stars[0]]), narrow), 12);
  assert.equal(list.list_12_to_20(narrow.subarray(0, 12), back), 20);
  assert.deepEqual(back.subarray(0, 20), listed([stars[0]]));
  const end = radio.put_star(sent, radio.put_head(sent, 0, 1), stars[1]);
  assert.deepEqual(radio.star(sent, 2), [stars[1], end]);
  refuses(8, () => radio.put_head(sent, 0, 3001));
  refuses(8, () => radio.put_star(sent.subarray(0, end - 1), 2, stars[1]));
});

test('a batch fills its slices, and leaves them where it is refused', () => {
  const bytes = listed(stars, 1);
  const [status, asc, dec] = [new Uint8Array(4).fill(99), new Float64Array(4).fill(99), new Float64Array(4).fill(99)];
  const tally = batch.batch(bytes, DAY1, DAY2, status, asc, dec);
  assert.deepEqual([...status], [0, 0, 10, 99]);
  assert.equal(tally.length, batch.COUNTS);
  assert.deepEqual([tally[0], tally[10]], [2, 1]);
  const places = [...batch.places(status.subarray(0, 3), asc, dec)];
  assert.deepEqual(places[0], chain.chain(0, 0, DAY1, DAY2));
  assert.equal(places[2].number, 10);
  const reduced = batch.reduced(bytes, DAY1, DAY2);
  assert.deepEqual(reduced.map(([star]) => star), stars);
  assert.deepEqual(reduced.map(([, place]) => place), places.slice(0, 2));
  const kept = [status, asc, dec].map((one) => one.slice());
  refuses(1, () => batch.batch(bytes, NaN, DAY2, status, asc, dec));
  refuses(2, () => batch.batch(bytes, DAY1, 0, status, asc, dec));
  refuses(8, () => batch.batch(bytes, DAY1, DAY2, status, asc, dec.subarray(2)));
  refuses(8, () => batch.reduced(bytes.subarray(1), DAY1, DAY2));
  refuses(8, () => batch.reduced(new Uint8Array(1 << 20), DAY1, DAY2));
  assert.deepEqual([status, asc, dec], kept);
  assert.equal(batch.tally_raise(tally, 10)[10], 2);
  refuses(9, () => batch.tally_raise(tally, 20));
  refuses(8, () => batch.tally_raise(tally.with?.(3, 60000) ?? tally.map((n, i) => (i === 3 ? 60000 : n)), 3));
  assert.throws(() => batch.tally_raise([1, 2], 3), RangeError);
});

test('residual sheets are exact, and merge', () => {
  const [asc, dec, seen_asc, seen_dec] = [[1, 2, 3], [0.1, 0.2, 0.3], [1.000001, 2.000001, 2.999998], [0.1, 0.1, 0.1]];
  const whole = residuals.residuals([0, 0, 0], asc, dec, seen_asc, seen_dec);
  const cut = (one, from, to) => one.slice(from, to);
  const part = (from, to) => residuals.residuals(cut([0, 0, 0], from, to), ...[asc, dec, seen_asc, seen_dec].map((one) => cut(one, from, to)));
  const [first, rest] = [part(0, 1), part(1, 3)];
  assert.deepEqual([first[0].merge(rest[0], 1), first[1].merge(rest[1], 1)], whole);
  assert.equal(whole[0].count, 3n);
  assert.equal(new residuals.Sheet().mean(), null);
  assert.equal(typeof whole[0].root_mean_square(), 'number');
  refuses(8, () => residuals.residuals([0], asc, dec, seen_asc, seen_dec));
  refuses(1, () => residuals.residuals([0, 0, 0], asc, dec, seen_asc, [0, NaN, 0]));
  refuses(3, () => residuals.residuals([5, 5, 5], asc, dec, seen_asc, [0, 65, 0]));
});

test('what is no number, no slice or no such whole number is the caller\'s error', () => {
  const bytes = listed(stars);
  for (const x of ['1', null, undefined, 1n, {}]) assert.throws(() => elementary.sin(x), TypeError);
  assert.throws(() => elementary.sin(1, 2), TypeError);
  assert.throws(() => list.find(bytes, 1.5), TypeError);
  assert.throws(() => list.find(bytes, 2 ** 32), RangeError);
  assert.throws(() => list.add(bytes, list.still(1, 0, 2 ** 31)), RangeError);
  assert.throws(() => list.star('bytes', 0), TypeError);
  assert.throws(() => list.star(bytes, -1), RangeError);
  assert.throws(() => list.gather([...bytes]), TypeError);
  assert.throws(() => batch.batch(bytes, DAY1, DAY2, new Uint8Array(2), new Float32Array(2), new Float64Array(2)), TypeError);
});

test('one rotation for a list', () => {
  const made = new Uint8Array(2 * list.RECORD_BYTES);
  list.add(made, list.still(7, 1000, 2000));
  const [[star, place]] = rotation.rotated(made, DAY1, DAY2);
  const [[, reduced]] = batch.reduced(made, DAY1, DAY2);
  assert.equal(star.number, 7);
  assert.ok(place.asc !== reduced.asc && Math.abs(place.asc - reduced.asc) < 1e-3 && Math.abs(place.dec - reduced.dec) < 1e-3);
  const [status, asc, dec] = [new Uint8Array(2), new Float64Array([5, 5]), new Float64Array([5, 5])];
  assert.equal(rotation.rotate(made, DAY1, DAY2, status, asc, dec)[10], 1);
  assert.deepEqual([asc[0], ...status], [place.asc, 0, 10]);
  refuses(8, () => rotation.rotate(made, DAY1, DAY2, status, asc, dec.subarray(1)));
  refuses(1, () => rotation.rotated(made, NaN, DAY2));
});

test('bytes of any length, for which memory grows', () => {
  const large = new Uint8Array(8 << 20);
  refuses(8, () => list.gather(large));
  refuses(13, () => radio.accept([3, 0, ...new Array(70000).fill(0)]));
  assert.equal(precess.precess_eq_coords(0.5, 0.5, DAY1, DAY2).length, 2);
});

test('the stored sample, of which a damaged one differs', () => {
  const sample = readFileSync(process.env.BRUNDELAK_SAMPLE, 'utf-8');
  const seen = replay(sample);
  assert.equal(seen.differing, 0);
  const of_numbers = (takes) => takes.length > 0 && takes.every(([type, , many]) => type.startsWith('double') && many !== 'slice');
  assert.equal(seen.functions, Object.values(functions).filter(([, takes]) => of_numbers(takes)).length);
  assert.ok(seen.calls > 6000 && seen.lists > 0 && seen.refused > 1000);
  const spoil = (line) => line.replace(/ = 0(.*)(\d)$/, (_, rest, digit) => ` = 0${rest}${(Number(digit) + 1) % 10}`);
  const spoilt = sample.split('\n').map((line) => (/^#|^list|^radio/.test(line) ? line : spoil(line)));
  assert.ok(replay(spoilt.join('\n')).differing > 2500);
});
