// Refraction at the sight (Meeus, chapter 16). Altitudes are in degrees, from 0.0 to 89.8; refraction is in minutes of arc.
import { one } from './module.js';

export const refrac_frm_apprnt_alt = one('brundelak_refrac_frm_apprnt_alt');
export const refrac_frm_true_alt = one('brundelak_refrac_frm_true_alt');
export const sight_alt = one('brundelak_sight_alt');
export const plan_alt = one('brundelak_plan_alt');
