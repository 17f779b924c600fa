"""Move bytecode and moveledger's records as text, and back; and why the verifier refuses a module."""

# The program has the same (`moveledger --version`), and so has pyproject.toml.
VERSION = "1.0.0"
