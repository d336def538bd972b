// Aberration.
import { call, one } from './module.js';

export const sol_aberr = one('brundelak_sol_aberr');
export const stell_aberr_in_eq_coords = (stell_eq_point, day) =>
  call('brundelak_stell_aberr_in_eq_coords', stell_eq_point.asc, stell_eq_point.dec, day);
