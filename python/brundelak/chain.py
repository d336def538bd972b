"""The whole reduction of a star."""
from ._library import call
from .coords import EqPoint
from .edition import Edition


def chain(asc: float, dec: float, day1: float, day2: float) -> EqPoint:
    """A star's place from one day to another: precession, then nutation and aberration. Refusals: 1, 2, 3, 14, 7, 4."""
    return chain_by(Edition.Crate, asc, dec, day1, day2)


def chain_by(edition: Edition, asc: float, dec: float, day1: float, day2: float) -> EqPoint:
    """The same in an edition."""
    return EqPoint(*call(edition.of('brundelak_chain'), asc, dec, day1, day2))
