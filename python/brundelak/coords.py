"""Changes of frame."""
from typing import NamedTuple

from ._library import call, one
from .edition import Edition


class GeographPoint(NamedTuple):
    """A place on the Earth: longitude positive west, latitude positive north."""

    long: float
    lat: float


class EqPoint(NamedTuple):
    """Right ascension and declination."""

    asc: float
    dec: float


class EclPoint(NamedTuple):
    """Ecliptic longitude and latitude."""

    long: float
    lat: float


def hr_angl_frm_observer_long(green_sidreal: float, observer_long: float, asc: float) -> float:
    """Hour angle from the sidereal time at Greenwich, not folded. Refusals: 1, 3."""
    return one('brundelak_hr_angl_frm_observer_long', green_sidreal, observer_long, asc)


def hr_angl_frm_loc_sidr(local_sidreal: float, asc: float) -> float:
    """Hour angle from the local sidereal time, not folded. Refusals: 1, 3."""
    return one('brundelak_hr_angl_frm_loc_sidr', local_sidreal, asc)


def ecl_frm_eq(asc: float, dec: float, oblq_eclip: float) -> EclPoint:
    """Ecliptic longitude and latitude. Refusals: 1, 3, 4, 7."""
    return EclPoint(*call('brundelak_ecl_frm_eq', asc, dec, oblq_eclip))


def asc_frm_ecl(ecl_long: float, ecl_lat: float, oblq_eclip: float) -> float:
    """Right ascension from ecliptic coordinates. Refusals: 1, 3, 4."""
    return one('brundelak_asc_frm_ecl', ecl_long, ecl_lat, oblq_eclip)


def dec_frm_ecl(ecl_long: float, ecl_lat: float, oblq_eclip: float) -> float:
    """Declination from ecliptic coordinates. Refusals: 1, 3, 7."""
    return one('brundelak_dec_frm_ecl', ecl_long, ecl_lat, oblq_eclip)


def az_frm_eq(hour_angle: float, dec: float, observer_lat: float) -> float:
    """Azimuth from south, west positive. Refusals: 1, 3, 4, 14."""
    return one('brundelak_az_frm_eq', hour_angle, dec, observer_lat)


def alt_frm_eq(hour_angle: float, dec: float, observer_lat: float) -> float:
    """Altitude, without refraction. Refusals: 1, 3, 7."""
    return one('brundelak_alt_frm_eq', hour_angle, dec, observer_lat)


def hr_angl_frm_hz(az: float, alt: float, observer_lat: float) -> float:
    """Hour angle from horizontal coordinates. Refusals: 1, 3, 4, 14."""
    return one('brundelak_hr_angl_frm_hz', az, alt, observer_lat)


def dec_frm_hz(az: float, alt: float, observer_lat: float) -> float:
    """Declination from horizontal coordinates. Refusals: 1, 3, 7."""
    return dec_frm_hz_by(Edition.Crate, az, alt, observer_lat)


def dec_frm_hz_by(edition: Edition, az: float, alt: float, observer_lat: float) -> float:
    """The same in an edition."""
    return one(edition.of('brundelak_dec_frm_hz'), az, alt, observer_lat)


def gal_long_frm_eq(asc: float, dec: float) -> float:
    """Galactic longitude from equatorial coordinates of B1950.0. Refusals: 1, 3, 4, 14."""
    return one('brundelak_gal_long_frm_eq', asc, dec)


def gal_lat_frm_eq(asc: float, dec: float) -> float:
    """Galactic latitude from equatorial coordinates of B1950.0. Refusals: 1, 3, 7."""
    return one('brundelak_gal_lat_frm_eq', asc, dec)


def asc_frm_gal(gal_long: float, gal_lat: float) -> float:
    """Right ascension of B1950.0 from galactic coordinates. Refusals: 1, 3, 4, 14."""
    return one('brundelak_asc_frm_gal', gal_long, gal_lat)
