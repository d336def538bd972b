// The batch: every star of a stored list from one day to another, and the tally of the statuses.
import { of_edition, Edition } from './edition.js';
import { call } from './module.js';
import { figures } from './raw.js';
import { by_star, result } from './stored.js';

export const { COUNTS, FULLEST } = figures;

export const reduced = (bytes, day1, day2) => reduced_by(Edition.Crate, bytes, day1, day2);

export const reduced_by = (edition, bytes, day1, day2) =>
  by_star(bytes, (...slices) => batch_by(edition, bytes, day1, day2, ...slices));

export function* places(status, asc, dec) {
  const records = Math.min(status.length, asc.length, dec.length);
  for (let i = 0; i < records; i++) yield result(status[i], asc[i], dec[i]);
}

export const batch = (bytes, day1, day2, status, asc, dec) => batch_by(Edition.Crate, bytes, day1, day2, status, asc, dec);

export const batch_by = (edition, bytes, day1, day2, status, asc, dec) =>
  Array.from(call(of_edition(edition, 'brundelak_batch'), bytes, day1, day2, status, asc, dec)[0]);

export const tally_raise = (tally, status) => Array.from(call('brundelak_tally_raise', status, tally)[0]);
