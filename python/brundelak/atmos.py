"""Refraction at the sight (Meeus, chapter 16). Altitudes are in degrees, from 0.0 to 89.8; refraction is in minutes of arc."""
from ._library import one


def refrac_frm_apprnt_alt(apprnt_alt: float) -> float:
    """Refraction from the apparent altitude. Refusals: 1, 3."""
    return one('brundelak_refrac_frm_apprnt_alt', apprnt_alt)


def refrac_frm_true_alt(true_alt: float) -> float:
    """Refraction from the true altitude. Refusals: 1, 3."""
    return one('brundelak_refrac_frm_true_alt', true_alt)


def sight_alt(apprnt_alt: float) -> float:
    """The true altitude of a star, from the one at which it was measured. Refusals: 1, 3."""
    return one('brundelak_sight_alt', apprnt_alt)


def plan_alt(true_alt: float) -> float:
    """The altitude at which to look for a star, from the computed one. Refusals: 1, 3."""
    return one('brundelak_plan_alt', true_alt)
