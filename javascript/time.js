// Time.
import { one } from './module.js';

export const julian_cent = one('brundelak_julian_cent');
export const mean_sidereal = one('brundelak_mean_sidereal');
export const apparent_sidereal = one('brundelak_apparent_sidereal');
