"""The true heading of a star, and of a mark beside it, and the mean of a mark's headings, in degrees from north, clockwise, from 0.0 to below 360.0."""
from typing import Any, NamedTuple

from ._library import call, one
from .coords import GeographPoint
from .edition import Edition
from .list import Star
from .residuals import Sheet


class Sight(NamedTuple):
    """Degrees: the heading from north, clockwise; the azimuth from south, west positive; the altitude without refraction."""

    heading: float
    azimuth: float
    alt: float


def heading(star: Star, day1: float, day2: float, geograph_point: GeographPoint) -> Sight:
    """A star's heading, azimuth and altitude on the second day, its record's place being that of the first. Refusals: 1, 2, 3, then 9, 3, 14,
    7 and 4 of its place, then 3, 4, 14 and 7."""
    return heading_by(Edition.Crate, star, day1, day2, geograph_point)


def heading_by(edition: Edition, star: Star, day1: float, day2: float, geograph_point: GeographPoint) -> Sight:
    """The same in an edition."""
    return Sight(*call(edition.of('brundelak_heading'), *star[1:], day1, day2, geograph_point.long, geograph_point.lat))


def mark_heading(heading: float, star_reading: float, mark_reading: float) -> float:
    """A mark's heading, from the star's and from what a circle reads at the star and at the mark. Refusals: 1, 3."""
    return one('brundelak_mark_heading', heading, star_reading, mark_reading)


class Mean(NamedTuple):
    """The mean in degrees, and the sheet of the residuals from the reference."""

    mean: float
    sheet: Sheet


def mean_heading(headings: Any) -> Mean:
    """The mean of a night's headings of one mark, from the first with which more than half of all agree. Refusals: 8, 1, 3, then 20 where there
    is none."""
    mean, sheet = call('brundelak_mean_heading', headings)
    return Mean(mean, Sheet(*sheet))
