"""Certificates as `moveledger prove` makes them: by the rules of `explain`, and where a program is given by it too."""

import os
import subprocess
import tempfile
from typing import Dict, Optional, Protocol

from .explain.failures import Failure
from .explain.verdict import explain_module
from .model import known
from .source_names import ModuleNames
from .writer import write_certificate


class NotProved(Exception):
    """Why a module has no certificate. The failure has the place and the rule; there is none where the program and the rules
    here differ."""

    def __init__(self, why: str, failure: Optional[Failure] = None):
        super().__init__(why)
        self.failure = failure


class NoProgram(Exception):
    """Why the program that is given makes no certificates."""


class MakesCertificates(Protocol):
    """What makes the certificates that a text leaves to be made."""

    def certificate(self, module: bytes, names: Optional[ModuleNames] = None) -> bytes:
        """A module's certificate. NotProved where there is none, NoProgram where the program that makes it can't be run."""


class Prover:
    """Makes certificates that state the least states, which are those of `moveledger prove`. A program that is given is asked
    too, and has to make the same."""

    def __init__(self, program: Optional[str] = None):
        self.program = program
        self.made: Dict[bytes, bytes] = {}

    def certificate(self, module: bytes, names: Optional[ModuleNames] = None) -> bytes:
        """A module's certificate. NotProved where there is none, NoProgram where a program is given and can't be run."""
        if module not in self.made:
            self.made[module] = self.proved(module, names)
        return self.made[module]

    def proved(self, module: bytes, names: Optional[ModuleNames]) -> bytes:
        verdict = explain_module(module, source=names)
        ours = verdict.failure.verdict if verdict.failure else write_certificate(known(verdict.least)).hex()
        if self.program is not None:
            answer = self.asked(module)
            if answer != ours:
                raise NotProved(f"the program and the rules here differ: `{self.program} prove` says {answer or 'nothing'}, "
                                f"and moveasm {ours or 'an empty certificate'}")
        if verdict.failure:
            raise NotProved(verdict.failure.sentence, verdict.failure)
        return bytes.fromhex(ours)

    def asked(self, module: bytes) -> str:
        """What the program prints of a module."""
        with tempfile.TemporaryDirectory() as folder:
            file = os.path.join(folder, "module")
            with open(file, "wb") as out:
                out.write(module)
            try:
                run = subprocess.run([str(self.program), "prove", file], stdout=subprocess.PIPE)
            except OSError as error:
                raise NoProgram(f"`{self.program}` can't be run: {error.strerror}") from None
        return run.stdout.decode("ascii", "replace").strip()
