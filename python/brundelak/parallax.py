"""Topocentric places."""
from typing import Tuple

from ._library import call, one
from .coords import EclPoint, EqPoint, GeographPoint
from .edition import Edition


def eq_hz_parallax(dist_to_earth: float) -> float:
    """Equatorial horizontal parallax. Refusals: 1, 5."""
    return one('brundelak_eq_hz_parallax', dist_to_earth)


def topocent_eq_coords(eq_point: EqPoint, eq_hz_parllx: float, geograph_point: GeographPoint, observer_ht: float,
                       greenw_sidr: float) -> EqPoint:
    """Topocentric equatorial coordinates. Refusals: 1, 3, 4, 5, 14."""
    return EqPoint(*call('brundelak_topocent_eq_coords', eq_point.asc, eq_point.dec, eq_hz_parllx, geograph_point.long, geograph_point.lat,
                         observer_ht, greenw_sidr))


def topopcent_ecl_coords(ecl_point: EclPoint, eq_hz_parllx: float, geograph_point: GeographPoint, observer_ht: float, loc_sidr: float,
                         eclip_oblq: float, geocent_semdia: float) -> Tuple[EclPoint, float]:
    """Topocentric ecliptic coordinates and semidiameter. Refusals: 1, 3, 4, 5, 6, 7."""
    return topopcent_ecl_coords_by(Edition.Crate, ecl_point, eq_hz_parllx, geograph_point, observer_ht, loc_sidr, eclip_oblq, geocent_semdia)


def topopcent_ecl_coords_by(edition: Edition, ecl_point: EclPoint, eq_hz_parllx: float, geograph_point: GeographPoint, observer_ht: float,
                            loc_sidr: float, eclip_oblq: float, geocent_semdia: float) -> Tuple[EclPoint, float]:
    """The same in an edition."""
    long, lat, semidiameter = call(edition.of('brundelak_topopcent_ecl_coords'), ecl_point.long, ecl_point.lat, eq_hz_parllx,
                                   geograph_point.long, geograph_point.lat, observer_ht, loc_sidr, eclip_oblq, geocent_semdia)
    return EclPoint(long, lat), semidiameter
