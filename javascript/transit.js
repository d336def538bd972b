// Rise, culmination and set (Meeus, chapter 15, before interpolation).
import { call } from './module.js';

export function rise_culm_set(eq_point, greenw_sidr, geograph_point, alt) {
  const [rise, culmination, set] = call('brundelak_rise_culm_set', eq_point.asc, eq_point.dec, greenw_sidr, geograph_point.long,
    geograph_point.lat, alt);
  return { rise, culmination, set };
}
