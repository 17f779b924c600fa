"""Certificates for modules that pass phases 2 to 8 and maybe none of the later ones, so that each is refused where it is wrong."""

from typing import Any, Dict

from .. import model
from ..writer import write_certificate
from . import certificate
from .edges import TEMP, Edges
from .flows import Domain, Need, State
from .subject import Subject
from .verdict import explain_module


class Forgiving:
    """A domain in which an instruction whose need isn't met takes away the edges at operands, or changes nothing, so that a
    flow goes on after it. `forgiven` has these needs, by the instructions."""

    def __init__(self, domain: Domain):
        self.domain = domain
        self.forgiven: Dict[int, Need] = {}

    def __getattr__(self, name: str) -> Any:
        return getattr(self.domain, name)

    def step(self, state: State, at: int) -> None:
        try:
            self.domain.step(state, at)
        except Need as need:
            self.forgiven.setdefault(at, need)
            if isinstance(state, Edges):
                for node in {node for edge in state for node in (edge.source, edge.target) if node[0] == TEMP}:
                    state.drop(node)


def fitting(subject: Subject) -> model.Certificate:
    """A certificate of a module that passed phases 2 to 8: the least states where there are any, otherwise ones that come near."""
    found = []
    for of_phase in certificate.domains(subject):
        states = [certificate.least_states(Forgiving(domain), subject.graph(domain.function)) for domain in of_phase]
        if any(isinstance(of_function, certificate.Gives) for of_function in states):
            return model.Certificate()
        found.append(states)
    return model.Certificate([[certificate.stated_block(*both) for both in zip(*of_function)] for of_function in zip(*found)])


def certificate_for(module: bytes) -> model.Certificate:
    """A certificate to be published with a module, where it passes phases 2 to 8; of another one the empty certificate, which nobody
    reads."""
    verdict = explain_module(module, b"\xff")
    if verdict.failure and (verdict.failure.phase or 0) < 9:
        return model.Certificate()
    return fitting(verdict.subject)


def fitting_bytes(module: bytes) -> bytes:
    """The bytes of such a certificate."""
    return write_certificate(certificate_for(module))
