"""Star places, proved against written rules: the star modules of the crate astro 2.0.0, with its names.

Every function takes any numbers; it answers what the rules give, bit for bit, or raises a Refusal. No answer is NaN or infinite. Angles are in
radians unless degrees are named, days are Julian (Ephemeris) days, distances in astronomical units, heights in metres. Azimuth is counted
from south, west positive; geographical longitude is positive west."""
from typing import Tuple

from . import (aberr, angle, atmos, batch, chain, coords, earth, elementary, heading, list, nutation, parallax, precess, radio, residuals,
               rotation, time, transit)
from ._library import version_number as _version_number
from .edition import Edition
from .refusal import Refusal

__all__ = ['Edition', 'Refusal', 'aberr', 'angle', 'atmos', 'batch', 'chain', 'coords', 'earth', 'elementary', 'heading', 'list', 'nutation',
           'parallax', 'precess', 'radio', 'residuals', 'rotation', 'time', 'transit', 'version']


def version() -> Tuple[int, int, int]:
    """The version of the library: its three parts."""
    number = _version_number()
    return number >> 16, number >> 8 & 255, number & 255
