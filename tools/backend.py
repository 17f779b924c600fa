"""A build backend that needs nothing but Python: it puts packages, scripts and the shared library of the ledger into a wheel.
pyproject.toml beside it says which."""

import base64
import hashlib
import json
import os
import re
import stat
import subprocess
import sysconfig
import zipfile
from pathlib import Path
from typing import Any, Dict, Iterator, List, Optional, Tuple

TOP = Path.cwd()
LIBRARY = "libmoveledger.so"
# The repository's bindings/library, from this folder, and where it puts the library.
MAKES, BUILT = "../library", "../../out/library"


class Project:
    """What pyproject.toml says. It is read by lines, since Python has no reader of TOML before 3.11."""

    def __init__(self) -> None:
        self.text = (TOP / "pyproject.toml").read_text(encoding="utf-8")
        self.name, self.version = self.value("name"), self.value("version")
        self.has_library = bool(self.value("has-library"))
        library = f"-{sysconfig.get_platform()}".replace("-", "_").replace(".", "_") if self.has_library else "_any"
        self.tag = f"py3-none-{library[1:]}"
        self.stem = f"{self.name}-{self.version}"

    def value(self, key: str) -> Any:
        """The value of a line `key = value`: a text, a list of texts, or true or false, which JSON writes alike."""
        found = re.search(rf"^{key} = (.*)$", self.text, re.MULTILINE)
        if found is None:
            raise SystemExit(f"pyproject.toml has no {key}")
        return json.loads(found[1])

    def metadata(self) -> str:
        lines = {"Metadata-Version": "2.1", "Name": self.name, "Version": self.version,
                 "Summary": self.value("description"), "Requires-Python": self.value("requires-python")}
        return "".join(f"{key}: {value}\n" for key, value in lines.items())

    def wheel(self) -> str:
        pure = "false" if self.has_library else "true"
        return f"Wheel-Version: 1.0\nGenerator: moveledger backend\nRoot-Is-Purelib: {pure}\nTag: {self.tag}\n"

    def sources(self) -> List[Path]:
        """The files of the packages."""
        folders = [TOP / package for package in self.value("packages")]
        files = [file for folder in folders for file in sorted(folder.rglob("*"))]
        return [file for file in files if file.suffix == ".py" or file.name == "py.typed"]

    def files(self) -> Iterator[Tuple[str, bytes]]:
        """What goes into a wheel: each file's name there, and its bytes."""
        for file in self.sources():
            yield file.relative_to(TOP).as_posix(), file.read_bytes()
        if self.has_library:
            yield f"{self.value('packages')[0]}/{LIBRARY}", library().read_bytes()
        for script in self.value("scripts"):
            _, _, rest = (TOP / script).read_bytes().partition(b"\n")
            yield f"{self.stem}.data/scripts/{script}", b"#!python\n" + rest


def library() -> Path:
    """The shared library: in the folder that MOVELEDGER_LIB_DIR names, otherwise the repository's, if that needn't be built."""
    said = os.environ.get("MOVELEDGER_LIB_DIR")
    if said is None and (TOP / MAKES).is_file():
        # Where it fails it says why, and the library isn't there.
        subprocess.run([TOP / MAKES, "--here"], check=False)
    folder = TOP / BUILT if said is None else Path(said)
    if not (folder / LIBRARY).is_file():
        raise SystemExit(f"there is no {folder / LIBRARY}: bindings/library makes it, MOVELEDGER_LIB_DIR names another folder")
    return folder / LIBRARY


def sum_of(data: bytes) -> str:
    """A checksum as a wheel's list has it."""
    return "sha256=" + base64.urlsafe_b64encode(hashlib.sha256(data).digest()).rstrip(b"=").decode("ascii")


def build_wheel(wheel_directory: str, config_settings: Optional[Dict[str, Any]] = None,
                metadata_directory: Optional[str] = None) -> str:
    """Makes the wheel, and answers its name."""
    project = Project()
    about = f"{project.stem}.dist-info"
    files = dict(project.files())
    files[f"{about}/METADATA"] = project.metadata().encode("utf-8")
    files[f"{about}/WHEEL"] = project.wheel().encode("utf-8")
    rows = [f"{name},{sum_of(data)},{len(data)}\n" for name, data in files.items()]
    files[f"{about}/RECORD"] = "".join([*rows, f"{about}/RECORD,,\n"]).encode("utf-8")
    name = f"{project.stem}-{project.tag}.whl"
    with zipfile.ZipFile(os.path.join(wheel_directory, name), "w", zipfile.ZIP_DEFLATED) as wheel:
        for file, data in files.items():
            entry = zipfile.ZipInfo(file)
            entry.compress_type = zipfile.ZIP_DEFLATED
            entry.external_attr = (stat.S_IFREG | (0o755 if "/scripts/" in file else 0o644)) << 16
            wheel.writestr(entry, data)
    return name


def build_sdist(sdist_directory: str, config_settings: Optional[Dict[str, Any]] = None) -> str:
    """Isn't there: the sources are the repository."""
    raise SystemExit("there is no source distribution: the sources are the repository")
