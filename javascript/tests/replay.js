// replay.js SAMPLE: the stored sample by the functions of the package: calls, each with what the supplied Rust or a rule written a second time
// answers, in bits. Prints how many differ; fails where one does, or where the sample is damaged.
import { readFileSync } from 'node:fs';
import { fileURLToPath } from 'node:url';
import * as brundelak from '../index.js';
import { status_of } from '../module.js';
import { figures, functions } from '../raw.js';

const { angle, elementary, heading, list, precess, radio, residuals, Edition, Refusal } = brundelak;
const modules = Object.values(brundelak).filter((one) => typeof one === 'object' && one !== Edition);
const WIDTH = figures.RECORD_BYTES;

// ---- the functions of numbers, by the header's names

const others = {
  sine: elementary.sin, cosine: elementary.cos, tangent: elementary.tan, arctangent: elementary.atan2, arcsine: elementary.asin,
  root: elementary.sqrt, limit_to_two_pi: angle.limit_to_two_PI, precess_eq_coords_fk5: precess.precess_eq_coords_FK5,
  precess_eq_coords_fk5_published: (...a) => precess.precess_eq_coords_FK5_by(Edition.Published, ...a),
};
const eq = (asc, dec) => ({ asc, dec });
const at = (long, lat) => ({ long, lat });
// those that take points: of the header's numbers
const points = {
  nutation_in_eq_coords: ([a, d, ...rest]) => [eq(a, d), ...rest],
  stell_aberr_in_eq_coords: ([a, d, ...rest]) => [eq(a, d), ...rest],
  topocent_eq_coords: ([a, d, p, l, b, ...rest]) => [eq(a, d), p, at(l, b), ...rest],
  topopcent_ecl_coords: ([a, d, p, l, b, ...rest]) => [at(a, d), p, at(l, b), ...rest],
  rise_culm_set: ([a, d, s, l, b, ...rest]) => [eq(a, d), s, at(l, b), ...rest],
};

const held = (name) => modules.map((one) => one[name]).find((one) => typeof one === 'function');
const flat = (answer) => (typeof answer === 'number' ? [answer] : Object.values(answer).flatMap(flat));
let raw = new Set();

/** What a function of the package answers to the numbers that the header's takes: a list of numbers. */
function numbers(name) {
  const plain = name.replace(/_published$/, '');
  const by = plain === name ? held(name) : held(plain + '_by')?.bind(null, Edition.Published);
  const f = others[name] ?? by;
  if (f) return (given) => flat(f(...(points[plain] ?? ((a) => a))(given)));
  raw.add(name);
  return (given) => {
    const [status, answers] = status_of('brundelak_' + name, ...given);
    if (status !== 0) throw Refusal.from_number(status);
    return answers;
  };
}

// ---- what a line says

const view = new DataView(new ArrayBuffer(8));
/** Bits in hexadecimal, without the zeros at the end. */
function double(word = '') {
  view.setBigUint64(0, BigInt('0x' + word.padEnd(16, '0').slice(0, 16)));
  return view.getFloat64(0);
}
const bytes = (digits) => Uint8Array.from(digits.match(/../g) ?? [], (two) => parseInt(two, 16));
const same = (a, b) => a.length === b.length && a.every((one, i) => Object.is(one, b[i]));

/** The status of a call that answers, or of its refusal; and the answer. */
function tried(call) {
  try {
    return [0, call()];
  } catch (why) {
    if (!(why instanceof Refusal)) throw why;
    return [why.number, null];
  }
}

const fields = (star) => [star.number, star.asc, star.dec, star.asc_rate, star.dec_rate];
const star_of = ([number, asc, dec, asc_rate, dec_rate]) => ({ number, asc, dec, asc_rate, dec_rate });
const signed = (words) => words.map((word, i) => (i < 2 ? Number(word) >>> 0 : Number(word) | 0));

/** A list's star, or a radio list's. */
function star(call, held, [place, , status, ...want]) {
  const [got, answer] = tried(() => call(held, BigInt(place)));
  if (got === 0 && answer === null) return Number(status) === figures.END ? Number(status) : null;
  return got === Number(status) && (got !== 0 || same([...fields(answer[0]), answer[1]], want.map(Number))) ? got : null;
}

function find(held, [number, , status, ...want]) {
  const [got, answer] = tried(() => list.find(held, Number(number)));
  return got === Number(status) && (got !== 0 || same([answer[0], ...fields(answer[1])], [want[0], number, ...want.slice(1)].map(Number))) ? got : null;
}

/** A batch of either edition, and whatever else takes and answers what it does. */
function batched(name, bytes_of, [day1, day2, , status, ...want]) {
  const records = Math.floor(bytes_of.length / WIDTH);
  const slices = [new Uint8Array(records).fill(0xa5), new Float64Array(records).fill(-7), new Float64Array(records).fill(-7)];
  const before = slices.map((one) => one.slice());
  const plain = name.replace(/_published$/, '');
  const f = held(plain + '_by')?.bind(null, plain === name ? Edition.Crate : Edition.Published);
  const [got, tally] = f
    ? tried(() => f(bytes_of, double(day1), double(day2), ...slices))
    : ((raw.add(name), ([s, [t]]) => [s, s === 0 ? Array.from(t) : null])(status_of('brundelak_' + name, bytes_of, double(day1), double(day2), ...slices)));
  if (got !== Number(status)) return null;
  if (got !== 0) return slices.every((one, i) => same(one, before[i])) ? got : null;
  const [counts, words] = [new Array(figures.COUNTS).fill(0), want.values()];
  for (let i = 0; i < records; i++) {
    const one = Number(words.next().value);
    const place = one === 0 ? [double(words.next().value), double(words.next().value)] : [0, 0];
    counts[one]++;
    if (!same([slices[0][i], slices[1][i], slices[2][i]], [one, ...place])) return null;
  }
  return same(tally, counts) ? got : null;
}

/** A call that writes into a slice. */
function written(name, held, words) {
  const slice = new Uint8Array(Number(words[0])).fill(0xa5);
  const want = slice.slice();
  const end = words.indexOf('=');
  const given = words.slice(1, end);
  const place = given.length > 0 ? BigInt(given[0]) : 0n;
  const calls = {
    radio_put_head: () => radio.put_head(slice, place, Number(given[1])),
    put_star: () => list.put_star(slice, place, star_of(signed(given.slice(1)))),
    radio_put_star: () => radio.put_star(slice, place, star_of(signed(given.slice(1)))),
  };
  const move = held_move(name);
  const [got, after] = tried(calls[name] ?? (() => move(held, slice)));
  const status = Number(words[end + 1]);
  const bytes_of = bytes(words[end + 2] ?? '');
  if (status === 0) want.set(bytes_of, Number(place));
  return got === status && (got !== 0 || after === Number(place) + bytes_of.length) && same(slice, want) ? got : null;
}

const held_move = (name) => list[name] ?? radio[name];

/** A call that edits the list where it stands. */
function edited(name, held, words) {
  const end = words.indexOf('=');
  const given = signed(words.slice(0, end));
  const status = Number(words[end + 1]);
  const want = status === 0 ? bytes(words[end + 2] ?? '') : held.slice();
  const [got] = tried({ strike: () => list.strike(held, given[0]), add: () => list.add(held, star_of(given)), gather: () => list.gather(held) }[name]);
  const agrees = got === status && same(held, want);
  held.set(want);
  return agrees ? got : null;
}

function sheets(words) {
  const lens = words.slice(0, 5).map(Number);
  let next = 5;
  const statuses = bytes(words[next++]);
  const angles = lens.slice(1).map((len) => Float64Array.from(words.slice(next, (next += len)), double));
  const [, status, ...want] = words.slice(next);
  const [got, answer] = tried(() => residuals.residuals(statuses, ...angles));
  return got === Number(status) && (got !== 0 || same(answer.flatMap((sheet) => Object.values(sheet)), want.map(BigInt))) ? got : null;
}

/** A star's heading, in either edition. */
function sight(name, words) {
  const plain = name.replace(/_published$/, '');
  const [asc, dec, asc_rate, dec_rate] = words.slice(0, 4).map(Number);
  const [day1, day2, long, lat] = words.slice(4, 8).map(double);
  const star = { number: 1, asc, dec, asc_rate, dec_rate };
  const [got, answer] = tried(() => heading.heading_by(plain === name ? Edition.Crate : Edition.Published, star, day1, day2, { long, lat }));
  return got === Number(words[9]) && (got !== 0 || same(Object.values(answer), words.slice(10).map(double))) ? got : null;
}

/** The mean of headings, and its sheet. */
function mean(words) {
  const end = 1 + Number(words[0]);
  const [, status, ...want] = words.slice(end);
  const [got, answer] = tried(() => heading.mean_heading(Float64Array.from(words.slice(1, end), double)));
  if (got !== Number(status)) return null;
  return got !== 0 || (Object.is(answer.mean, double(want[0])) && same(Object.values(answer.sheet), want.slice(1).map(BigInt))) ? got : null;
}

/** All calls of a sample. */
export function replay(text) {
  let f = null;
  let held = new Uint8Array(0);
  const seen = { calls: 0, functions: 0, lists: 0, answered: 0, refused: 0, differing: 0 };
  raw = new Set();
  const shape = JSON.stringify(functions.brundelak_batch);
  for (const line of text.split('\n')) {
    const words = line.split(/[ \n]+/).filter((word) => word !== '');
    if (words.length === 0 || line.startsWith('#')) continue;
    const [name, ...rest] = words;
    if (name === 'list' || name === 'radio') {
      held = bytes(rest[0] ?? '');
      seen.lists++;
      continue;
    }
    if (!words.includes('=')) {
      f = numbers(name);
      seen.functions++;
      continue;
    }
    seen.calls++;
    let status;
    if (name === 'star') status = star(list.star, held, rest);
    else if (name === 'radio_star') status = star(radio.star, held, rest);
    else if (name === 'find') status = find(held, rest);
    else if (JSON.stringify(functions['brundelak_' + name]) === shape) status = batched(name, held, rest);
    else if (name === 'radio_open' || name === 'radio_accept') {
      const [got, answer] = tried(() => (name === 'radio_open' ? radio.open(held) : [radio.accept(held)]));
      status = got === Number(rest[1]) && (got !== 0 || same(answer, rest.slice(2).map(Number))) ? got : null;
    } else if (held_move(name) && /_to_/.test(name) || /^(radio_)?put_/.test(name)) status = written(name, held, rest);
    else if (name === 'strike' || name === 'add' || name === 'gather') status = edited(name, held, rest);
    else if (name === 'residuals') status = sheets(rest);
    else if (name === 'heading' || name === 'heading_published') status = sight(name, rest);
    else if (name === 'mean_heading') status = mean(rest);
    else {
      const end = words.indexOf('=');
      const [got, answer] = tried(() => f(words.slice(0, end).map(double)));
      status = got === Number(words[end + 1]) && (got !== 0 || same(answer, words.slice(end + 2).map(double))) ? got : null;
    }
    if (status === null) seen.differing++;
    else if (status === 0) seen.answered++;
    else seen.refused++;
  }
  return { ...seen, raw: [...raw] };
}

if (process.argv[1] === fileURLToPath(import.meta.url)) {
  const seen = replay(readFileSync(process.argv[2], 'utf-8'));
  const said = seen.raw.length > 0 ? `, by the raw boundary alone ${seen.raw.join(' ')}` : '';
  console.log(`replay: ${seen.calls} calls of the sample (${seen.functions} functions, ${seen.lists} lists; ${seen.answered} answered, ` +
    `${seen.refused} refused${said}), differing ${seen.differing}`);
  process.exitCode = seen.calls > 0 && seen.functions > 0 && seen.lists > 0 && seen.differing === 0 ? 0 : 1;
}
