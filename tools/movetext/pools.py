"""Tables in the making: entries, each with the place at which it stands first."""

from typing import Dict, Generic, Hashable, List, TypeVar

from .errors import TextError
from .limits import INDEX

T = TypeVar("T", bound=Hashable)


class Pool(Generic[T]):
    """A table in the making. `starts` are the offsets in the text at which its entries stand first."""

    def __init__(self, what: str):
        self.what = what
        self.entries: List[T] = []
        self.starts: List[int] = []
        self.places: Dict[T, int] = {}

    def add(self, entry: T, at: int) -> int:
        """Puts an entry at the end, whether it is there or not."""
        place = len(self.entries)
        if place > INDEX:
            raise TextError(at, f"a module has at most {INDEX + 1} {self.what}")
        self.entries.append(entry)
        self.starts.append(at)
        self.places.setdefault(entry, place)
        return place

    def place(self, entry: T, at: int) -> int:
        """The first place of an entry, which is put at the end where it isn't there."""
        place = self.places.get(entry)
        return self.add(entry, at) if place is None else place
