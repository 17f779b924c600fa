"""Why a module or a bundle is refused: the rules of docs/VERIFIER.md and docs/INSTRUCTIONS.md, written apart from the program's
code. Nothing rests on what is said here; the verdict is moveledger's."""
