"""Rise, culmination and set (Meeus, chapter 15, before interpolation)."""
from typing import NamedTuple

from ._library import call
from .coords import EqPoint, GeographPoint


class DayFractions(NamedTuple):
    """Fractions of the sidereal day since 0h universal time."""

    rise: float
    culmination: float
    set: float


def rise_culm_set(eq_point: EqPoint, greenw_sidr: float, geograph_point: GeographPoint, alt: float) -> DayFractions:
    """When a star rises, culminates and sets. Refusals: 1, 3, 4, then 15 (never rises), 16 (never sets)."""
    return DayFractions(*call('brundelak_rise_culm_set', eq_point.asc, eq_point.dec, greenw_sidr, geograph_point.long, geograph_point.lat, alt))
