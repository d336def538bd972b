"""Aberration."""
from typing import Tuple

from ._library import call, one
from .coords import EqPoint


def sol_aberr(dist: float) -> float:
    """Solar aberration in longitude. Refusals: 1, 5."""
    return one('brundelak_sol_aberr', dist)


def stell_aberr_in_eq_coords(stell_eq_point: EqPoint, day: float) -> Tuple[float, float]:
    """Stellar aberration in right ascension and in declination. Refusals: 1, 2, 3, 4."""
    in_asc, in_dec = call('brundelak_stell_aberr_in_eq_coords', stell_eq_point.asc, stell_eq_point.dec, day)
    return in_asc, in_dec
