"""Why a call was refused."""
from __future__ import annotations

from typing import Dict, Optional, Tuple

from . import _raw

_NAMED: Dict[int, Tuple[str, str]] = {number: (name, sentence) for number, name, sentence in _raw.REFUSALS}


class Refusal(Exception):
    """Why a call was refused. A refused call answers nothing else, and leaves what it was lent."""

    # the highest number that has a name
    HIGHEST = max(_NAMED)

    def __init__(self, number: int) -> None:
        self.number = number
        self.kind, self.sentence = _NAMED.get(number, ('Other', _raw.UNNAMED))
        super().__init__(number)

    @staticmethod
    def from_number(number: int) -> Optional[Refusal]:
        """The refusal that a number stands for, as a status of a batch has it; none for 0, which is no refusal."""
        return None if number == 0 else Refusal(number)

    def __str__(self) -> str:
        return 'refused by %d: %s' % (self.number, self.sentence)

    def __eq__(self, other: object) -> bool:
        return isinstance(other, Refusal) and self.number == other.number

    def __hash__(self) -> int:
        return hash((Refusal, self.number))
