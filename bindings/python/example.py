"""Publishes a coin, mints and reads the report: from text to lines."""

import moveledger

TEXT = """
publish by 0x1 {
    module 0x1::M {
        struct Coin has store, key { v: u64 }
        public entry mint(s: signer, v: u64) { ImmBorrowLoc s; MoveLoc v; Pack Coin; MoveTo Coin; Ret }
    }
    certificate prove
}
run 0x1::M::mint(7u64) by 0x1 budget 100
"""

with moveledger.Ledger() as ledger:
    for line in ledger.apply(moveledger.assemble(TEXT)):
        print(line)
    print(ledger.show())
    print(ledger.value(0x1, "0x1::M::Coin"))
