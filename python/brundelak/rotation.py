"""One rotation for the whole list: every star of a stored list precessed from one day to another by one matrix. It is precession alone,
without nutation and aberration, and is not claimed equal to precess: the last digits differ."""
from typing import Any, List, Tuple

from . import list as _list
from ._library import call
from .batch import Place, _by_star
from .edition import Edition


def rotated(bytes: Any, day1: float, day2: float) -> List[Tuple[_list.Star, Place]]:
    """Every star of a list under the rotation from one day to another, each with its place or why it has none. Refusals: 1, 2, 8."""
    return rotated_by(Edition.Crate, bytes, day1, day2)


def rotated_by(edition: Edition, bytes: Any, day1: float, day2: float) -> List[Tuple[_list.Star, Place]]:
    """The same by an edition's angles."""
    return _by_star(bytes, lambda status, asc, dec: rotate_by(edition, bytes, day1, day2, status, asc, dec))


def rotate(bytes: Any, day1: float, day2: float, status: Any, asc: Any, dec: Any) -> List[int]:
    """Every star of a list under the rotation: the buffers get the status of each record and two angles. Answers how many records have
    each status. Refusals, which leave the buffers unchanged: 1, 2, 8."""
    return rotate_by(Edition.Crate, bytes, day1, day2, status, asc, dec)


def rotate_by(edition: Edition, bytes: Any, day1: float, day2: float, status: Any, asc: Any, dec: Any) -> List[int]:
    """The same by an edition's angles."""
    tally: List[int] = call(edition.of('brundelak_rotate'), bytes, day1, day2, status, asc, dec)[0]
    return tally
