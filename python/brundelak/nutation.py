"""Nutation."""
from typing import Tuple

from ._library import call
from .coords import EqPoint


def nutation(day: float) -> Tuple[float, float]:
    """Nutation in longitude and in obliquity. Refusals: 1, 2."""
    nut_in_long, nut_in_oblq = call('brundelak_nutation', day)
    return nut_in_long, nut_in_oblq


def nutation_ceiling(day: float) -> Tuple[float, float]:
    """The most, in size, that nutation can answer on the day. Refusals: 1, 2."""
    long_ceiling, oblq_ceiling = call('brundelak_nutation_ceiling', day)
    return long_ceiling, oblq_ceiling


def nutation_in_eq_coords(eq_point: EqPoint, nut_in_long: float, nut_in_oblq: float, tru_oblq: float) -> Tuple[float, float]:
    """Nutation in right ascension and in declination. Refusals: 1, 3, 4."""
    in_asc, in_dec = call('brundelak_nutation_in_eq_coords', eq_point.asc, eq_point.dec, nut_in_long, nut_in_oblq, tru_oblq)
    return in_asc, in_dec
