"""The limits, each once: the table of docs/FORMATS.md has them, and tests/python/test_text.py compares it with these."""

# The greatest index, and the most entries of each kind that a module holds.
INDEX = 65_535
TABLE_COUNT = 255
TABLE_BYTES = 65_536
SIGNATURE_TYPES = 64
IDENTIFIER_BYTES = 128
STRUCT_FIELDS = 32
ABILITY_BITS = 15
FUNCTION_COUNT = 256
INSTRUCTION_COUNT = 4_096

# What the verifier lets a function and a struct have. Nesting and leaf values count those of fields, at any depth.
PARAMETER_COUNT = 16
RESULT_COUNT = 8
LOCAL_COUNT = 64
OPERAND_COUNT = 128
NESTING = 8
LEAF_COUNT = 256

# What a certificate holds, and how often the search for one visits a block.
CERTIFICATE_BYTES = 1_048_576
EDGE_COUNT = 1_024
POSITION_COUNT = 8
POSITION = 31
VISIT_COUNT = 256

# What a record holds. A budget is written as any number of 64 bits, and a run has at most so many steps.
RECORD_BYTES = 33_554_432
BUNDLE_MODULES = 16
ARGUMENT_COUNT = 16
BUDGET = 18_446_744_073_709_551_615
STEP_COUNT = 10_000_000
FRAME_COUNT = 256

# What a ledger holds. A run packs at most one value of a struct in each of its steps.
STORE_MODULES = 4_096
RUN_COUNT = 4_294_967_296
PACKED_IN_A_RUN = STEP_COUNT
TALLY = RUN_COUNT * PACKED_IN_A_RUN
STORED_COUNT = 18_446_744_073_709_551_615

# Every limit that the table of docs/FORMATS.md has.
IN_FORMATS = (
    RECORD_BYTES, BUNDLE_MODULES, TABLE_BYTES, CERTIFICATE_BYTES, INDEX, FUNCTION_COUNT, INSTRUCTION_COUNT, STRUCT_FIELDS,
    SIGNATURE_TYPES, IDENTIFIER_BYTES, PARAMETER_COUNT, RESULT_COUNT, LOCAL_COUNT, OPERAND_COUNT, EDGE_COUNT, POSITION_COUNT,
    POSITION, VISIT_COUNT, NESTING, LEAF_COUNT, STORE_MODULES, ARGUMENT_COUNT, STEP_COUNT, RUN_COUNT, FRAME_COUNT)
