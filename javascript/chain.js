// The whole reduction of a star.
import { of_edition, Edition } from './edition.js';
import { call } from './module.js';

export const chain = (asc, dec, day1, day2) => chain_by(Edition.Crate, asc, dec, day1, day2);

export function chain_by(edition, old_asc, old_dec, day1, day2) {
  const [asc, dec] = call(of_edition(edition, 'brundelak_chain'), old_asc, old_dec, day1, day2);
  return { asc, dec };
}
