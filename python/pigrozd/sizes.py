"""How many results a join has, and how many bytes they take."""
from dataclasses import dataclass

from .limits import HIGHEST_COUNT, VALUE_BYTES
from .messages import count


@dataclass(frozen=True, repr=False)
class Size:
    """How many `results` a join has, how many `values` each of them has, and how many `bytes` they take as the library
    writes them, 4 for each value. All are exact, unless `at_least` is true: results are counted up to
    18,446,744,073,709,551,615, and there are so many or more."""

    results: int
    values: int

    @property
    def bytes(self) -> int:
        """The bytes that the values of all results take."""
        return self.results * self.values * VALUE_BYTES

    @property
    def at_least(self) -> bool:
        """Whether there may be more results, and more bytes, than are named."""
        return self.results >= HIGHEST_COUNT

    def __str__(self) -> str:
        least = "at least " if self.at_least else ""
        results, values = count(self.results, "result"), count(self.values, "value")
        verb = "takes" if self.results == 1 else "take"
        return "%s%s of %s, which %s %s%s" % (least, results, values, verb, least, count(self.bytes, "byte"))

    def __repr__(self) -> str:
        return "<Size: %s>" % self
