// Precession.
import { of_edition, Edition } from './edition.js';
import { call } from './module.js';

export const annual_precess = (asc, dec, day) => call('brundelak_annual_precess', asc, dec, day);
export const precess_eq_coords = (old_asc, old_dec, day1, day2) => precess_eq_coords_by(Edition.Crate, old_asc, old_dec, day1, day2);
export const precess_eq_coords_by = (edition, old_asc, old_dec, day1, day2) =>
  call(of_edition(edition, 'brundelak_precess_eq_coords'), old_asc, old_dec, day1, day2);
export const precess_eq_coords_FK5 = (old_asc, old_dec, day1, day2) => precess_eq_coords_FK5_by(Edition.Crate, old_asc, old_dec, day1, day2);
export const precess_eq_coords_FK5_by = (edition, old_asc, old_dec, day1, day2) =>
  call(of_edition(edition, 'brundelak_precess_eq_coords_fk5'), old_asc, old_dec, day1, day2);
export const precess_ecl_coords = (old_long, old_lat, day1, day2) => call('brundelak_precess_ecl_coords', old_long, old_lat, day1, day2);
export const precess_orb_elements = (old_inc, old_arg_perih, old_long_ascend_node, day1, day2) =>
  call('brundelak_precess_orb_elements', old_inc, old_arg_perih, old_long_ascend_node, day1, day2);
