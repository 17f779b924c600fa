"""Writes what is measured into a folder: modules, their certificates by `moveledger prove`, payloads and streams."""

import subprocess
from pathlib import Path
from typing import Callable, Dict, Iterator, List, Tuple

import inputs
from inputs import Module, Offered, model, publish, record, run, u64

# Modules and their certificates by name; and a record's kind and payload.
Bundles = Dict[str, Offered]
Record = Tuple[int, bytes]

# Where a build leaves the program.
PROGRAM = "crates/moveledger_program/out/moveledger_program"

# How many modules there are of each kind, and how many stand in a chain.
CHAINED, CHAIN = 4_000, 100
# Among how many of these modules some are replaced, and how many are: whole chains.
UPGRADED_AMONG, UPGRADES = (500, 2_000), 300
LARGE_FEW, LARGE_MANY = 100, 200

FUNCTIONS = (1_024, 2_048, 4_096)
STRUCTS = (390, 3_900)
BLOCKS = (50, 100, 200)
ROUNDS_OF_A_LOOP = (10, 20, 40)

# The functions that make steps without an end, and what they are told.
WORK = {
    "sums": "arithmetic loop", "calls": "calls, 200 deep", "moves1": "moves of a struct of 1 leaf",
    "moves8": "moves of a struct of 8 leaves", "moves64": "moves of a struct of 64 leaves",
    "coins": "values of an asset made and taken apart",
    "writes": "writes of a field by a local reference", "holds": "writes of a stored field by a reference kept",
    "reads": "reads of a stored field by its address", "stores": "writes of a stored field by its address",
}
AT_ADDRESS = ("reads", "stores", "holds")
OWNER = 7


def measured_modules() -> Dict[str, Module]:
    """Each module that is measured by itself, by its name."""
    modules = {"helping": inputs.helping(), "working": inputs.working(), "working60": inputs.large_working()}
    for version in 5, 6:
        modules[f"small{version}"] = inputs.all_families(inputs.SMALL, version)
        modules[f"large{version}"] = inputs.all_families(inputs.LARGE, version)
    for count in FUNCTIONS:
        modules[f"mixed{count}"] = inputs.mixed(count)
        modules[f"edges{count}"] = inputs.many_edges(count)
    for count in STRUCTS:
        modules[f"structs{count}"] = inputs.many_structs(count)
    for count in BLOCKS:
        modules[f"blocks{count}"] = inputs.looping(count)
    for count in ROUNDS_OF_A_LOOP:
        modules[f"rounds{count}"] = inputs.rippling(count, 200)
    return modules


def certificate(folder: Path, file: str) -> bytes:
    """The certificate that the program makes for a module."""
    program = folder / PROGRAM
    out = subprocess.run([program, "prove", file], check=True, capture_output=True, text=True, cwd=folder).stdout
    return bytes.fromhex(out.strip())


def write_modules(folder: Path) -> Bundles:
    """The bytes of each module and its certificate, by its name."""
    bundles = {}
    for name, module in measured_modules().items():
        text = module.bytes()
        (folder / f"{name}.module").write_bytes(text)
        bundles[name] = text, certificate(folder, f"{name}.module")
        (folder / f"{name}.certificate").write_bytes(bundles[name][1])
    return bundles


def chained(folder: Path) -> List[bytes]:
    """The payloads that publish modules which name each other in chains."""
    texts = [inputs.link_of_a_chain(n, CHAIN).bytes() for n in range(CHAINED)]
    certificates = []
    for n in 0, 1:
        (folder / "chain.module").write_bytes(texts[n])
        certificates.append(certificate(folder, "chain.module"))
    return [publish((text, certificates[n % CHAIN != 0])) for n, text in enumerate(texts)]


def streams(folder: Path, bundles: Bundles) -> Dict[str, List[Record]]:
    """Each stream as its records: a kind and a payload."""
    def published(name: str) -> List[Record]:
        return [(1, publish(bundles[name]))]

    chain = [(1, payload) for payload in chained(folder)]
    empty = [(1, publish((inputs.Module(f"E{n}").bytes(), b""))) for n in range(CHAINED)]
    certificate_of_large = bundles["large5"][1]
    renamed = inputs.all_families(inputs.LARGE, 5)
    texts = (renamed.renamed(f"L{n}") for n in range(LARGE_MANY))
    large = [(1, publish((text, certificate_of_large))) for text in texts]
    mints = published("working") + [(2, run("mint", 100, u64(7), sender=1000 + n)) for n in range(10_000)]
    out: Dict[str, List[Record]] = {"nothing": [], "helping": published("helping")}
    for name in ("small5", "large5", "small6", "large6", *(f"structs{count}" for count in STRUCTS)):
        out[name] = published("helping") + published(name)
    for count in 400, CHAINED - 400, CHAINED:
        out[f"chain{count}"] = chain[:count]
        out[f"empty{count}"] = empty[:count]
    for count in UPGRADED_AMONG:
        out[f"chain{count}"] = chain[:count]
        out[f"upgraded{count}"] = chain[:count] + chain[:UPGRADES]
    for count in LARGE_FEW, LARGE_MANY:
        out[f"large{count}"] = published("helping") + large[:count]
    out["working"] = published("working")
    for count in 1_000, 10_000:
        out[f"mints{count}"] = mints[:count + 1]
    out[f"empty{CHAINED}mints"] = empty[:CHAINED - 1] + mints
    out[f"large{LARGE_FEW}mints"] = published("helping") + large[:LARGE_FEW] + mints
    return out


def runs() -> Dict[str, Callable[[int], bytes]]:
    """The payloads of the runs that are measured in one process, without their budgets."""
    at = model.Value(model.ADDRESS, inputs.address(OWNER))
    arguments = {name: at if name in AT_ADDRESS else u64(0) for name in WORK}

    def of(name: str) -> Callable[[int], bytes]:
        return lambda budget: run(name, budget, arguments[name])

    return {name: of(name) for name in WORK}


def many_mints(folder: Path, count: int) -> Iterator[bytes]:
    """A stream in pieces that mints for so many addresses in no order."""
    yield (folder / "working.stream").read_bytes()
    for n in range(count):
        sender = n * 0x9E3779B97F4A7C15 % 2**64 * 2**64
        yield record(2, run("mint", 100, u64(7), sender=sender))


def write(folder: Path) -> None:
    bundles = write_modules(folder)
    files = {f"{name}.bundle": publish(bundles[name]) for name in ("helping", "working")}
    files["working60.bundle"] = publish(bundles["helping"], bundles["working60"])
    for name, payload in runs().items():
        files[f"{name}.run"] = payload(10_000_000)
    files["no_step.run"] = run("sums", 0, u64(0))
    files["no_step60.run"] = run("idle", 0, u64(0))
    files["owner.run"] = run("mint", 100, u64(7), sender=OWNER)
    files["mint.run"] = run("mint", 100, u64(7))
    files["unpack.run"] = run("unpack", 100, u64(7))
    for name, records in streams(folder, bundles).items():
        files[f"{name}.stream"] = b"".join(record(kind, payload) for kind, payload in records)
        last = records[-1] if records else (0, b"")
        files[f"{name}.lines"] = f"{len(records)} {'returned' if last[0] == 2 else 'published'}".encode()
    for name, data in files.items():
        (folder / name).write_bytes(data)
