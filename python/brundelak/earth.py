"""The Earth's figure (astro's `planet::earth`)."""
from typing import Tuple

from ._library import call


def rho_sin_cos_phi(lat: float, height: float) -> Tuple[float, float]:
    """rho sin phi' and rho cos phi' of an observer, in equatorial radii. Refusals: 1, 3, 4, 5."""
    rho_sin, rho_cos = call('brundelak_rho_sin_cos_phi', lat, height)
    return rho_sin, rho_cos
