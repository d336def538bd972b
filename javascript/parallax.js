// Topocentric places.
import { of_edition, Edition } from './edition.js';
import { call, one } from './module.js';

export const eq_hz_parallax = one('brundelak_eq_hz_parallax');

export function topocent_eq_coords(eq_point, eq_hz_parllx, geograph_point, observer_ht, greenw_sidr) {
  const [asc, dec] = call('brundelak_topocent_eq_coords', eq_point.asc, eq_point.dec, eq_hz_parllx, geograph_point.long, geograph_point.lat,
    observer_ht, greenw_sidr);
  return { asc, dec };
}

export const topopcent_ecl_coords = (ecl_point, eq_hz_parllx, geograph_point, observer_ht, loc_sidr, eclip_oblq, geocent_semdia) =>
  topopcent_ecl_coords_by(Edition.Crate, ecl_point, eq_hz_parllx, geograph_point, observer_ht, loc_sidr, eclip_oblq, geocent_semdia);

export function topopcent_ecl_coords_by(edition, ecl_point, eq_hz_parllx, geograph_point, observer_ht, loc_sidr, eclip_oblq, geocent_semdia) {
  const [long, lat, semidiameter] = call(of_edition(edition, 'brundelak_topopcent_ecl_coords'), ecl_point.long, ecl_point.lat, eq_hz_parllx,
    geograph_point.long, geograph_point.lat, observer_ht, loc_sidr, eclip_oblq, geocent_semdia);
  return [{ long, lat }, semidiameter];
}
