"""The elementary functions on which everything rests: written rules over doubles, the same on every machine."""
from ._library import one


def sin(x: float) -> float:
    """Sine; of -0.0 it is -0.0. Refusals: 1, 3 above 400000.0."""
    return one('brundelak_sine', x)


def cos(x: float) -> float:
    """Cosine. Refusals: 1, 3 above 400000.0."""
    return one('brundelak_cosine', x)


def tan(x: float) -> float:
    """Tangent. Refusals: 1, 3 above 400000.0, 4 above 1.57."""
    return one('brundelak_tangent', x)


def atan2(y: float, x: float) -> float:
    """Arctangent of two arguments. Refusals: 1, 14 where both are zero."""
    return one('brundelak_arctangent', y, x)


def asin(s: float) -> float:
    """Arcsine. Refusals: 1, 7."""
    return one('brundelak_arcsine', s)


def sqrt(x: float) -> float:
    """Square root, rounded to nearest. Refusals: 1, 5."""
    return one('brundelak_root', x)
