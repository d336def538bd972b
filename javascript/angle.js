// Degrees, seconds and turns.
import { one } from './module.js';

export const deg_frm_dms = one('brundelak_deg_frm_dms');
export const deg_frm_hms = one('brundelak_deg_frm_hms');
export const to_radians = one('brundelak_to_radians');
export const limit_to_360 = one('brundelak_limit_to_360');
export const limit_to_two_PI = one('brundelak_limit_to_two_pi');
