// The Earth's figure.
import { call } from './module.js';

export const rho_sin_cos_phi = (lat, height) => call('brundelak_rho_sin_cos_phi', lat, height);
