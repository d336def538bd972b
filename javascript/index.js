// Star places, proved against written rules: the star modules of the crate astro 2.0.0, with its names. Every function takes any numbers;
// it answers what the rules give, bit for bit, or throws a Refusal. No answer is NaN or infinite.
import { version_number } from './module.js';

export * as aberr from './aberr.js';
export * as angle from './angle.js';
export * as atmos from './atmos.js';
export * as batch from './batch.js';
export * as chain from './chain.js';
export * as coords from './coords.js';
export * as earth from './earth.js';
export * as elementary from './elementary.js';
export * as heading from './heading.js';
export * as list from './list.js';
export * as nutation from './nutation.js';
export * as parallax from './parallax.js';
export * as precess from './precess.js';
export * as radio from './radio.js';
export * as residuals from './residuals.js';
export * as rotation from './rotation.js';
export * as time from './time.js';
export * as transit from './transit.js';
export { Edition } from './edition.js';
export { Refusal } from './refusal.js';

/** The version of the module: its three parts. */
export function version() {
  const number = version_number();
  return [number >> 16, (number >> 8) & 255, number & 255];
}
