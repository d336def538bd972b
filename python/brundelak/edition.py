"""Which rules a call goes by, where astro's are not Meeus's."""
import enum


class Edition(enum.Enum):
    """A function without an edition goes by astro's rules."""

    # astro's rules, by which past files reproduce
    Crate = ''
    # Meeus's rules as published, for new files
    Published = '_published'

    def of(self, symbol: str) -> str:
        """The entry point of the edition."""
        return symbol + self.value
