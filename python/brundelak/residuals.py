"""The residual sheet of a night: computed less measured places, in whole milliarcseconds. Every figure is exact."""
from __future__ import annotations

from dataclasses import dataclass
from typing import Any, Optional, Tuple

from . import elementary
from ._library import call


@dataclass(frozen=True)
class Sheet:
    """The figures of a coordinate. That of a night without entries is Sheet()."""

    count: int = 0
    sum: int = 0
    squares: int = 0
    largest: int = 0
    place: int = 0
    aside: int = 0

    def merge(self, other: Sheet, moved_by: int) -> Sheet:
        """The sheet of a night in two parts: other is that of the second, whose entries come after the moved_by of the first."""
        moved = other.place + moved_by
        if other.count == 0:
            place = self.place
        elif self.count == 0:
            place = moved
        elif self.largest != other.largest:
            place = self.place if self.largest > other.largest else moved
        else:
            place = min(self.place, moved)
        return Sheet(self.count + other.count, self.sum + other.sum, self.squares + other.squares, max(self.largest, other.largest), place,
                     self.aside + other.aside)

    def mean(self) -> Optional[float]:
        """The mean of the residuals taken in; none where none is."""
        return float(self.sum) / float(self.count) if self.count else None

    def root_mean_square(self) -> Optional[float]:
        """The root of the mean of their squares, by elementary.sqrt; none where none is taken in."""
        return elementary.sqrt(float(self.squares) / float(self.count)) if self.count else None


def residuals(status: Any, asc: Any, dec: Any, measured_asc: Any, measured_dec: Any) -> Tuple[Sheet, Sheet]:
    """The sheet of right ascension and that of declination, over all entries of status 0. Refusals: 8, 1, 3."""
    asc_sheet, dec_sheet = call('brundelak_residuals', status, asc, dec, measured_asc, measured_dec)
    return Sheet(*asc_sheet), Sheet(*dec_sheet)
