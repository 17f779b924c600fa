"""The records of the trial: publishes, runs, and refused ones, made at random from a seed."""

import random
from typing import List

from movetext import model
from movetext.errors import Source
from movetext.model import Value
from movetext.proving import Prover
from movetext.streaming import TextAssembler
from movetext.writer import write_record, write_sized

MODULES = 20
SENDERS = 50
UNKNOWN_KIND = 0x2A
LARGE_BYTES = 1_500_000
LARGEST_BYTES = 33_554_432
# From so many records on the largest one is among them.
LARGEST_FROM = 10_000
# A certificate of the module, in hexadecimal.
CERTIFICATE = "01010100010100"
COIN = """
publish by 0x%(sender)x {
    module 0x%(place)x::M {
        struct Coin has store, key { v: u64 }

        public entry mint(s: signer, v: u64) {
            ImmBorrowLoc s
            MoveLoc v
            Pack Coin
            MoveTo Coin
            Ret
        }

        public entry burn(a: address) acquires Coin {
            MoveLoc a
            MoveFrom Coin
            Unpack Coin
            Pop
            Ret
        }
    }
    certificate x"%(certificate)s"
}
"""


def address(number: int) -> bytes:
    return number.to_bytes(16, "big")


def published(place: int, sender: int, certificate: str) -> bytes:
    """A record that publishes a coin's module at an address."""
    text = COIN % {"place": place, "sender": sender, "certificate": certificate}
    return bytes(TextAssembler(Source("coin", text), "", Prover()).bytes())


def run(module: int, function: str, sender: int, arguments: List[Value], budget: int = 100) -> bytes:
    return bytes(write_record(model.Run(address(sender), address(module), "M", function, budget, arguments)))


def sized(kind: int, payload: bytes) -> bytes:
    return bytes([kind]) + bytes(write_sized(payload))


class Given:
    """Makes records."""

    def __init__(self, seed: int) -> None:
        self.random = random.Random(seed)
        self.fresh = 0
        self.coins = [published(place, place, CERTIFICATE) for place in range(1, MODULES + 1)]
        self.other_coins = [published(place, sender, certificate) for place in range(1, MODULES // 2)
                            for sender, certificate in ((place, "01000100010100"), (MODULES + 1, CERTIFICATE))]
        self.kinds = {self.mint: 55, self.burn: 15, self.rejected: 8, self.refused: 5, self.unknown: 6, self.misshapen: 4}

    def records(self, count: int) -> List[bytes]:
        """So many records; the modules are published within the first half."""
        kinds, weights = list(self.kinds), list(self.kinds.values())
        made = [make() for make in self.random.choices(kinds, weights, k=count)]
        if count < 4 * MODULES:
            return [*self.coins, *made][:count]
        for place, coin in enumerate(self.coins):
            made[place * count // (2 * MODULES)] = coin
        made[count // 3] = sized(UNKNOWN_KIND, bytes(LARGE_BYTES))
        if count >= LARGEST_FROM:
            made[count // 2 + 1] = sized(UNKNOWN_KIND, bytes(LARGEST_BYTES))
        return made

    def next(self) -> bytes:
        """One more record."""
        return bytes(self.random.choices(list(self.kinds), list(self.kinds.values()))[0]())

    def module(self) -> int:
        return self.random.randrange(1, MODULES + 1)

    def sender(self) -> int:
        return self.random.randrange(1, SENDERS + 1)

    def some_bytes(self) -> bytes:
        return bytes(self.random.choices(range(256), k=self.random.randrange(40)))

    def mint(self) -> bytes:
        """A mint, which is given up where the sender has such a coin."""
        return run(self.module(), "mint", self.sender(), [Value(model.U64, self.random.getrandbits(64))])

    def fresh_mint(self) -> bytes:
        """A mint by a sender who has no coin yet, which returns."""
        self.fresh += 1
        return run(1, "mint", SENDERS + self.fresh, [Value(model.U64, 7)])

    def burn(self) -> bytes:
        """A burn, which is given up where there is no such coin."""
        return run(self.module(), "burn", self.sender(), [Value(model.ADDRESS, address(self.sender()))])

    def rejected(self) -> bytes:
        """A run that isn't begun: of no such module or function, of other arguments, or of too large a budget."""
        one = [Value(model.U64, 1)]
        return self.random.choice((run(MODULES + 1, "mint", 1, one), run(1, "melt", 1, one), run(1, "mint", 1, []),
                                   run(1, "mint", 1, one, 10_000_001)))

    def refused(self) -> bytes:
        """A publish that is refused: a module that is there, another certificate, or another sender than its address."""
        return self.random.choice([*self.coins, *self.other_coins])

    def unknown(self) -> bytes:
        return sized(UNKNOWN_KIND, self.some_bytes())

    def misshapen(self) -> bytes:
        """A record whose payload isn't of its kind's shape."""
        kind = self.random.randrange(1, 3)
        return sized(kind, b"\x02" + self.some_bytes())
