// Nutation.
import { call } from './module.js';

export const nutation = (day) => call('brundelak_nutation', day);
export const nutation_ceiling = (day) => call('brundelak_nutation_ceiling', day);
export const nutation_in_eq_coords = (eq_point, nut_in_long, nut_in_oblq, tru_oblq) =>
  call('brundelak_nutation_in_eq_coords', eq_point.asc, eq_point.dec, nut_in_long, nut_in_oblq, tru_oblq);
