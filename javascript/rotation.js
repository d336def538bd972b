// One rotation for the whole list: every star of a stored list precessed from one day to another by one matrix. Precession alone.
import { of_edition, Edition } from './edition.js';
import { call } from './module.js';
import { by_star } from './stored.js';

export const rotated = (bytes, day1, day2) => rotated_by(Edition.Crate, bytes, day1, day2);

export const rotated_by = (edition, bytes, day1, day2) =>
  by_star(bytes, (...slices) => rotate_by(edition, bytes, day1, day2, ...slices));

export const rotate = (bytes, day1, day2, status, asc, dec) => rotate_by(Edition.Crate, bytes, day1, day2, status, asc, dec);

export const rotate_by = (edition, bytes, day1, day2, status, asc, dec) =>
  Array.from(call(of_edition(edition, 'brundelak_rotate'), bytes, day1, day2, status, asc, dec)[0]);
