"""The stored list: at most 3000 records of 20 bytes. A record whose number is 0 is an empty place, and no star. A list is bytes, or any
buffer of them; one that is written is a buffer that can be, as a bytearray."""
from typing import Any, Iterator, NamedTuple, Optional, Tuple

from . import _raw
from ._library import call, status_of
from .refusal import Refusal

RECORD_BYTES, MOST_STARS, MOST_BYTES = _raw.RECORD_BYTES, _raw.MOST_STARS, _raw.MOST_BYTES
NARROW_RECORD_BYTES, MOST_NARROW_BYTES = _raw.NARROW_RECORD_BYTES, _raw.MOST_NARROW_BYTES


class Star(NamedTuple):
    """A star as its record has it, in range or not: milliarcseconds, and milliarcseconds a year. It stands still where no rate is given."""

    number: int
    asc: int
    dec: int
    asc_rate: int = 0
    dec_rate: int = 0


def stars(bytes: Any) -> Iterator[Star]:
    """The stars of a list, in range or not, in their order; empty places are passed over. Refusals: 8, before the first is asked for."""
    star(bytes, 0)
    return _from(bytes)


def _from(bytes: Any) -> Iterator[Star]:
    shown = star(bytes, 0)
    while shown is not None:
        yield shown[0]
        shown = star(bytes, shown[1])


def star(bytes: Any, place: int) -> Optional[Tuple[Star, int]]:
    """The first star from a place of a list on, and the place after it; none where no star is left. Refusals: 8."""
    status, answers = status_of('brundelak_star', bytes, place)
    if status == _raw.END:
        return None
    if status != 0:
        raise Refusal(status)
    return Star(*answers[:5]), answers[5]


def put_star(out: Any, place: int, star: Star) -> int:
    """Writes a star's record from a place of a buffer on, and answers the place after it. Refusals: 9, then 8."""
    after: int = call('brundelak_put_star', out, place, *star)[0]
    return after


def find(bytes: Any, number: int) -> Tuple[int, Star]:
    """The index of the record of the first star with a number, and the star. Refusals: 8, 10, 9."""
    index, *rest = call('brundelak_find', bytes, number)
    return index, Star(number, *rest)


def strike(bytes: Any, number: int) -> None:
    """Strikes the first star with a number off a list. Refusals: 8, 10."""
    call('brundelak_strike', bytes, number)


def add(bytes: Any, star: Star) -> None:
    """Adds a star to a list, in its first empty place. Refusals: 8, 9, 18, 19."""
    call('brundelak_add', bytes, *star)


def gather(bytes: Any) -> None:
    """Brings the stars of a list forward; zero bytes follow to the end. Refusals: 8."""
    call('brundelak_gather', bytes)


def list_12_to_20(bytes: Any, out: Any) -> int:
    """Writes a narrow list as a list from a buffer's start on. Answers how many bytes it has. Refusals: 8, 9, then 8."""
    written: int = call('brundelak_list_12_to_20', bytes, out)[0]
    return written


def list_20_to_12(bytes: Any, out: Any) -> int:
    """Writes a list whose stars all stand still as a narrow list. Answers how many bytes it has. Refusals: 8, 9, 17, then 8."""
    written: int = call('brundelak_list_20_to_12', bytes, out)[0]
    return written
