"""The bytes of modules, certificates, records and saved ledgers, by docs/FORMATS.md."""

from typing import Callable, Dict, List, Optional, Tuple

from . import model
from .model import RawRecord, TABLE_FIELDS, write_leaf
from .numbers import write_number
from .opcodes import NUMBER


def write_numbers(*values: int) -> bytes:
    return b"".join(map(write_number, values))


def write_sized(data: bytes) -> bytes:
    """Bytes after their number."""
    return write_number(len(data)) + data


def write_name(name: str) -> bytes:
    return write_sized(name.encode("latin-1"))


def write_token(token: model.Token) -> bytes:
    if token.is_reference:
        return bytes([token.kind]) + write_token(token.inner)
    return bytes([token.kind]) + (write_number(token.struct) if token.kind == model.STRUCT else b"")


def write_module_handle(handle: model.ModuleHandle) -> bytes:
    return write_numbers(handle.address, handle.name)


def write_struct_handle(handle: model.StructHandle) -> bytes:
    return write_numbers(handle.module, handle.name, handle.abilities, 0)


def write_function_handle(handle: model.FunctionHandle) -> bytes:
    return write_numbers(handle.module, handle.name, handle.parameters, handle.results, 0)


def write_signature(types: model.Signature) -> bytes:
    return write_number(len(types)) + b"".join(map(write_token, types))


def write_constant(constant: model.Constant) -> bytes:
    return write_token(constant.type) + write_sized(constant.data)


def write_struct(definition: model.StructDefinition) -> bytes:
    fields = b"".join(write_number(one.name) + write_token(one.type) for one in definition.fields)
    return write_number(definition.handle) + b"\x02" + write_number(len(definition.fields)) + fields


def write_field_handle(handle: model.FieldHandle) -> bytes:
    return write_numbers(handle.struct, handle.position)


def write_instruction(instruction: model.Instruction) -> bytes:
    opcode = instruction.opcode
    if opcode.operand == NUMBER:
        return bytes([opcode.code]) + instruction.operand.to_bytes(opcode.width, "little")
    return bytes([opcode.code]) + (write_number(instruction.operand) if opcode.operand else b"")


def write_function(function: model.FunctionDefinition) -> bytes:
    front = write_number(function.handle) + bytes([int(function.is_public), 4 * int(function.is_entry)])
    acquires = write_numbers(len(function.acquires), *function.acquires)
    code = b"".join(map(write_instruction, function.code))
    return front + acquires + write_numbers(function.locals, len(function.code)) + code


WRITERS: Dict[int, Callable[..., bytes]] = {
    model.MODULE_HANDLES: write_module_handle, model.STRUCT_HANDLES: write_struct_handle,
    model.FUNCTION_HANDLES: write_function_handle, model.SIGNATURES: write_signature, model.CONSTANTS: write_constant,
    model.IDENTIFIERS: write_name, model.ADDRESSES: bytes, model.STRUCTS: write_struct,
    model.FUNCTIONS: write_function, model.FIELD_HANDLES: write_field_handle,
}


def write_module(module: model.Module) -> bytes:
    """A module's bytes, its tables in ascending order of kind and the empty ones left out."""
    headers, contents, offset = [], [], 0
    for kind in TABLE_FIELDS:
        table = b"".join(map(WRITERS[kind], module.table(kind)))
        if table:
            headers.append(bytes([kind]) + write_numbers(offset, len(table)))
            contents.append(table)
            offset += len(table)
    front = model.MAGIC + module.version.to_bytes(4, "little") + write_number(len(headers))
    return front + b"".join(headers + contents) + write_number(module.own)


def write_edge(edge: model.Edge) -> bytes:
    nodes = b"".join(bytes([node.kind]) + write_number(node.index) for node in (edge.source, edge.target))
    return nodes + write_numbers(len(edge.positions), *edge.positions) + bytes([int(edge.is_open)])


def write_state(state: Optional[model.BlockState]) -> bytes:
    """A block's state, or None for a block that isn't reached."""
    if state is None:
        return b"\x00"
    edges = write_number(len(state.edges)) + b"".join(map(write_edge, state.edges))
    return b"\x01" + bytes(state.availabilities) + edges


def write_certificate(certificate: model.Certificate) -> bytes:
    return b"".join(write_state(state) for blocks in certificate.functions for state in blocks)


def write_offer(offer: model.Offer) -> bytes:
    return write_sized(offer.module) + write_sized(offer.certificate)


def write_value(value: model.Value) -> bytes:
    """An argument: the byte of its type, and its value."""
    return bytes([value.kind]) + write_leaf(value.kind, value.value)


def write_payload(record: model.Record) -> Tuple[int, bytes]:
    """A record's kind and payload."""
    if isinstance(record, RawRecord):
        return record.kind, record.payload
    if isinstance(record, model.Publish):
        return model.PUBLISH, record.sender + write_number(len(record.offers)) + b"".join(map(write_offer, record.offers))
    if isinstance(record, model.Run):
        names = write_name(record.module) + write_name(record.function)
        arguments = write_numbers(record.budget, len(record.arguments)) + b"".join(map(write_value, record.arguments))
        return model.RUN, record.sender + record.address + names + arguments
    kind = model.SHOW if isinstance(record, model.Show) else model.AUDIT
    return kind, b"\x01" if record.is_json else b""


def write_record(record: model.Record) -> bytes:
    kind, payload = write_payload(record)
    return bytes([kind]) + write_sized(payload)


def write_stream(stream: model.Stream) -> bytes:
    return b"".join(map(write_record, stream.records)) + stream.rest


def write_leaves(stored: model.Stored) -> bytes:
    return b"".join(write_leaf(leaf.kind, leaf.value) for leaf in stored.leaves)


def write_ledger(ledger: model.Ledger) -> bytes:
    """A saved ledger's bytes, of its form."""
    front = model.LEDGER_MAGIC[ledger.form] + write_numbers(ledger.runs, len(ledger.offers))
    front += b"".join(map(write_offer, ledger.offers))
    return front + (write_first_form(ledger) if ledger.form == 1 else write_second_form(ledger))


def write_first_form(ledger: model.Ledger) -> bytes:
    """Tallies of 16 bytes, and the stored values by address."""
    tallies = b"".join(n.to_bytes(16, "little") for one in ledger.tallies for n in (one.packed, one.unpacked))
    stored = (one.address + write_numbers(one.place, one.struct) + write_leaves(one) for one in ledger.stored)
    return tallies + write_number(len(ledger.stored)) + b"".join(stored)


def write_second_form(ledger: model.Ledger) -> bytes:
    """Tallies as numbers, and for each struct with key its stored values."""
    tallies = b"".join(write_numbers(one.packed, one.unpacked) for one in ledger.tallies)
    values: Dict[Tuple[int, int], List[bytes]] = {key: [] for key in ledger.keys}
    for one in ledger.stored:
        values[one.place, one.struct].append(one.address + write_leaves(one))
    return tallies + b"".join(write_number(len(of_key)) + b"".join(of_key) for of_key in values.values())
