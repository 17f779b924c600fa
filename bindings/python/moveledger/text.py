"""Records from text, by movetext (`pip install ./tools`), with certificates that the library makes."""

from typing import Any, Dict

from .errors import Refused, TooComplex
from .ledger import prove


class LibraryProver:
    """Makes the certificates that a text leaves to the prover, by the library. Where there is none, movetext says why."""

    def __init__(self) -> None:
        self.made: Dict[bytes, bytes] = {}

    def certificate(self, module: bytes, *names: Any) -> bytes:
        """A module's certificate. `names` are movetext's own, for what it says of a module that has none: its NotProved."""
        from movetext.proving import Prover

        if module not in self.made:
            try:
                self.made[module] = prove(module)
            except (Refused, TooComplex):
                self.made[module] = Prover().certificate(module, *names)
        return self.made[module]


def assemble(text: str, name: str = "text", folder: str = "") -> bytes:
    """The bytes of a text: of a module, or of records. `name` stands in messages; files that the text names are looked for in
    `folder`. movetext's TextErrors where the text has errors."""
    from movetext.errors import Source
    from movetext.streaming import TextAssembler

    data: bytes = TextAssembler(Source(name, text), folder, LibraryProver()).bytes()
    return data
