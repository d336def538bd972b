"""Precession."""
from typing import Tuple

from ._library import call
from .edition import Edition


def annual_precess(asc: float, dec: float, day: float) -> Tuple[float, float]:
    """Annual precession in right ascension and in declination. Refusals: 1, 2, 3, 4."""
    in_asc, in_dec = call('brundelak_annual_precess', asc, dec, day)
    return in_asc, in_dec


def precess_eq_coords(old_asc: float, old_dec: float, day1: float, day2: float) -> Tuple[float, float]:
    """Equatorial coordinates (FK5) from one day to another. Refusals: 1, 2, 3, 14, 7."""
    return precess_eq_coords_by(Edition.Crate, old_asc, old_dec, day1, day2)


def precess_eq_coords_by(edition: Edition, old_asc: float, old_dec: float, day1: float, day2: float) -> Tuple[float, float]:
    """The same in an edition."""
    asc, dec = call(edition.of('brundelak_precess_eq_coords'), old_asc, old_dec, day1, day2)
    return asc, dec


def precess_eq_coords_FK5(old_asc: float, old_dec: float, day1: float, day2: float) -> Tuple[float, float]:
    """Coordinates of the FK4 system from one day to another. Refusals: 1, 2, 3, 14, 7."""
    return precess_eq_coords_FK5_by(Edition.Crate, old_asc, old_dec, day1, day2)


def precess_eq_coords_FK5_by(edition: Edition, old_asc: float, old_dec: float, day1: float, day2: float) -> Tuple[float, float]:
    """The same in an edition."""
    asc, dec = call(edition.of('brundelak_precess_eq_coords_fk5'), old_asc, old_dec, day1, day2)
    return asc, dec


def precess_ecl_coords(old_long: float, old_lat: float, day1: float, day2: float) -> Tuple[float, float]:
    """Ecliptic coordinates from one day to another. Refusals: 1, 2, 3, 7."""
    ecl_long, ecl_lat = call('brundelak_precess_ecl_coords', old_long, old_lat, day1, day2)
    return ecl_long, ecl_lat


def precess_orb_elements(old_inc: float, old_arg_perih: float, old_long_ascend_node: float, day1: float,
                         day2: float) -> Tuple[float, float, float]:
    """Inclination, argument of perihelion and longitude of the node from one day to another. Refusals: 1, 2, 3, 7, 6."""
    inc, arg_perih, long_ascend_node = call('brundelak_precess_orb_elements', old_inc, old_arg_perih, old_long_ascend_node, day1, day2)
    return inc, arg_perih, long_ascend_node
