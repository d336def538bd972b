// The elementary functions on which everything rests: written rules over doubles, the same on every machine.
import { one } from './module.js';

export const sin = one('brundelak_sine');
export const cos = one('brundelak_cosine');
export const tan = one('brundelak_tangent');
export const atan2 = one('brundelak_arctangent');
export const asin = one('brundelak_arcsine');
export const sqrt = one('brundelak_root');
