// The stored list: at most 3000 records of 20 bytes; a record whose number is 0 is an empty place, and no star.
import { call, status_of } from './module.js';
import { figures } from './raw.js';
import { fields } from './record.js';
import { Refusal } from './refusal.js';

export const { RECORD_BYTES, MOST_STARS, MOST_BYTES, NARROW_RECORD_BYTES, MOST_NARROW_BYTES } = figures;

/** A star that stands still: both rates are zero. */
export const still = (number, asc, dec) => ({ number, asc, dec, asc_rate: 0, dec_rate: 0 });

export function stars(bytes) {
  star(bytes, 0);
  return from(bytes, 0);
}

function* from(bytes, place) {
  for (let shown = star(bytes, place); shown !== null; shown = star(bytes, place)) {
    const [one, next] = shown;
    place = next;
    yield one;
  }
}

export function star(bytes, place) {
  const [status, [number, asc, dec, asc_rate, dec_rate, next]] = status_of('brundelak_star', bytes, place);
  if (status === figures.END) return null;
  if (status !== 0) throw Refusal.from_number(status);
  return [{ number, asc, dec, asc_rate, dec_rate }, next];
}

export const put_star = (out, place, star) => call('brundelak_put_star', out, place, ...fields(star))[0];

export function find(bytes, number) {
  const [index, asc, dec, asc_rate, dec_rate] = call('brundelak_find', bytes, number);
  return [index, { number, asc, dec, asc_rate, dec_rate }];
}

export function strike(bytes, number) {
  call('brundelak_strike', bytes, number);
}

export function add(bytes, star) {
  call('brundelak_add', bytes, ...fields(star));
}

export function gather(bytes) {
  call('brundelak_gather', bytes);
}

export const list_12_to_20 = (bytes, out) => call('brundelak_list_12_to_20', bytes, out)[0];
export const list_20_to_12 = (bytes, out) => call('brundelak_list_20_to_12', bytes, out)[0];
