"""Time."""
from ._library import one


def julian_cent(day: float) -> float:
    """Julian centuries from 2451545.0 (J2000). Refusals: 1, 2."""
    return one('brundelak_julian_cent', day)


def mean_sidereal(day: float) -> float:
    """Mean sidereal time at Greenwich, in radians from 0 to a turn, on a day of universal time. Refusals: 1, 2."""
    return one('brundelak_mean_sidereal', day)


def apparent_sidereal(day: float) -> float:
    """Apparent sidereal time at Greenwich, likewise: the mean one with nutation's share. Refusals: 1, 2."""
    return one('brundelak_apparent_sidereal', day)
