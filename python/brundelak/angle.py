"""Degrees, seconds and turns."""
from ._library import one


def deg_frm_dms(seconds: float) -> float:
    """Degrees of seconds of arc. Refusals: 1."""
    return one('brundelak_deg_frm_dms', seconds)


def deg_frm_hms(seconds: float) -> float:
    """Degrees of seconds of time. Refusals: 1."""
    return one('brundelak_deg_frm_hms', seconds)


def to_radians(degrees: float) -> float:
    """Radians of degrees. Refusals: 1."""
    return one('brundelak_to_radians', degrees)


def limit_to_360(degrees: float) -> float:
    """Degrees folded into one turn. Refusals: 1."""
    return one('brundelak_limit_to_360', degrees)


def limit_to_two_PI(radians: float) -> float:
    """Radians folded into one turn. Refusals: 1."""
    return one('brundelak_limit_to_two_pi', radians)
