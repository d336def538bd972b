"""Lists over the radio link. Only the stored list has empty places: here number 0 is read and written as any other."""
from typing import Any, Tuple

from . import _raw
from ._library import call
from .list import Star

MOST_BYTES = _raw.MOST_RADIO_BYTES


def open(bytes: Any) -> Tuple[int, int]:
    """How many stars a list says it has, and the place of the first. Refusals: 13 (empty), 11, 12 or 13 (the count), 8."""
    count, place = call('brundelak_radio_open', bytes)
    return count, place


def star(bytes: Any, place: int) -> Tuple[Star, int]:
    """The star at a place of a list and the place after it. Refusals: 13 (empty), 11, 12 or 13 number by number, 9."""
    *fields, after = call('brundelak_radio_star', bytes, place)
    return Star(*fields), after


def accept(bytes: Any) -> int:
    """How many stars a whole list has. Refusals: as open, as star at each star, then 13 for bytes over."""
    count: int = call('brundelak_radio_accept', bytes)[0]
    return count


def put_head(out: Any, place: int, count: int) -> int:
    """Writes the head of a list with so many stars. Answers the place after it. Refusals: 8 for the count, then 8 for no room."""
    after: int = call('brundelak_radio_put_head', out, place, count)[0]
    return after


def put_star(out: Any, place: int, star: Star) -> int:
    """Writes a star from a place of a buffer on. Answers the place after it. Refusals: 9, then 8 for no room."""
    after: int = call('brundelak_radio_put_star', out, place, *star)[0]
    return after


def radio_to_list(bytes: Any, out: Any) -> int:
    """Writes a radio list as a stored list. Answers how many bytes it has. Refusals: as accept, then 8."""
    written: int = call('brundelak_radio_to_list', bytes, out)[0]
    return written


def list_to_radio(bytes: Any, out: Any) -> int:
    """Writes a stored list as a radio list. Answers how many bytes it has. Refusals: 8, 9, then 8."""
    written: int = call('brundelak_list_to_radio', bytes, out)[0]
    return written
