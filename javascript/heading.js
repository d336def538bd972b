// The true heading of a star, and of a mark beside it, and the mean of a mark's headings, in degrees from north, clockwise, from 0.0 to below 360.0.
import { of_edition, Edition } from './edition.js';
import { call, one } from './module.js';
import { fields } from './record.js';
import { Sheet } from './residuals.js';

export const heading = (star, day1, day2, geograph_point) => heading_by(Edition.Crate, star, day1, day2, geograph_point);

export function heading_by(edition, star, day1, day2, geograph_point) {
  const [heading, azimuth, alt] = call(of_edition(edition, 'brundelak_heading'), ...fields(star).slice(1), day1, day2, geograph_point.long,
    geograph_point.lat);
  return { heading, azimuth, alt };
}

export const mark_heading = one('brundelak_mark_heading');

export function mean_heading(headings) {
  const [mean, figures] = call('brundelak_mean_heading', headings);
  return { mean, sheet: new Sheet(figures) };
}
