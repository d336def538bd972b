// Changes of frame.
import { of_edition, Edition } from './edition.js';
import { call, one } from './module.js';

export const hr_angl_frm_observer_long = one('brundelak_hr_angl_frm_observer_long');
export const hr_angl_frm_loc_sidr = one('brundelak_hr_angl_frm_loc_sidr');

export function ecl_frm_eq(asc, dec, oblq_eclip) {
  const [long, lat] = call('brundelak_ecl_frm_eq', asc, dec, oblq_eclip);
  return { long, lat };
}

export const asc_frm_ecl = one('brundelak_asc_frm_ecl');
export const dec_frm_ecl = one('brundelak_dec_frm_ecl');
export const az_frm_eq = one('brundelak_az_frm_eq');
export const alt_frm_eq = one('brundelak_alt_frm_eq');
export const hr_angl_frm_hz = one('brundelak_hr_angl_frm_hz');
export const dec_frm_hz = (az, alt, observer_lat) => dec_frm_hz_by(Edition.Crate, az, alt, observer_lat);
export const dec_frm_hz_by = (edition, az, alt, observer_lat) => call(of_edition(edition, 'brundelak_dec_frm_hz'), az, alt, observer_lat)[0];
export const gal_long_frm_eq = one('brundelak_gal_long_frm_eq');
export const gal_lat_frm_eq = one('brundelak_gal_lat_frm_eq');
export const asc_frm_gal = one('brundelak_asc_frm_gal');
