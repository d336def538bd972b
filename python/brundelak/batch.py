"""The batch: every star of a stored list from one day to another, and the tally of the statuses."""
import array
from typing import Any, Callable, Iterator, List, Sequence, Tuple, Union

from . import _raw
from . import list as _list
from ._library import call
from .coords import EqPoint
from .edition import Edition
from .refusal import Refusal

COUNTS, FULLEST = _raw.COUNTS, _raw.FULLEST

Place = Union[EqPoint, Refusal]


def _place(status: int, asc: float, dec: float) -> Place:
    return Refusal.from_number(status) or EqPoint(asc, dec)


def reduced(bytes: Any, day1: float, day2: float) -> List[Tuple[_list.Star, Place]]:
    """Every star of a list by the chain from one day to another, each with its place or why it has none. Refusals: 1, 2, 8."""
    return reduced_by(Edition.Crate, bytes, day1, day2)


def reduced_by(edition: Edition, bytes: Any, day1: float, day2: float) -> List[Tuple[_list.Star, Place]]:
    """The same in an edition."""
    return _by_star(bytes, lambda status, asc, dec: batch_by(edition, bytes, day1, day2, status, asc, dec))


def _by_star(bytes: Any, store: Callable[[Any, Any, Any], List[int]]) -> List[Tuple[_list.Star, Place]]:
    """Each star of a list with what a call stored of it."""
    # room for every record of the longest list: more bytes are no list, which is the call's to refuse, after the days
    records = min(_list.MOST_STARS, len(bytes) // _list.RECORD_BYTES)
    status, asc, dec = bytearray(records), array.array('d', [0.0]) * records, array.array('d', [0.0]) * records
    store(status, asc, dec)
    every = []
    shown = _list.star(bytes, 0)
    while shown is not None:
        # the record of a star that is shown is the one that ends at the next place, whatever was passed over before it
        i = shown[1] // _list.RECORD_BYTES - 1
        every.append((shown[0], _place(status[i], asc[i], dec[i])))
        shown = _list.star(bytes, shown[1])
    return every


def places(status: Sequence[int], asc: Sequence[float], dec: Sequence[float]) -> Iterator[Place]:
    """What a batch left in the buffers, record by record: a place, or why there is none. It ends with the shortest."""
    return (_place(int(one), float(x), float(y)) for one, x, y in zip(status, asc, dec))


def batch(bytes: Any, day1: float, day2: float, status: Any, asc: Any, dec: Any) -> List[int]:
    """Every star of a list by the chain: the buffers get the status of each record and two angles. Answers how many records have each
    status. Refusals, which leave the buffers unchanged: 1, 2, 8."""
    return batch_by(Edition.Crate, bytes, day1, day2, status, asc, dec)


def batch_by(edition: Edition, bytes: Any, day1: float, day2: float, status: Any, asc: Any, dec: Any) -> List[int]:
    """The same in an edition."""
    tally: List[int] = call(edition.of('brundelak_batch'), bytes, day1, day2, status, asc, dec)[0]
    return tally


def tally_raise(tally: Sequence[int], status: int) -> List[int]:
    """A tally with the count of one status raised. Refusals: 9, then 8."""
    raised: List[int] = call('brundelak_tally_raise', status, tally)[0]
    return raised
