"""Makes the users of a log, each with a role of its own, and has etcd ask for their passwords from then on."""

import os
import secrets
from typing import Dict, List, Tuple

from .errors import LogError
from .etcd import Etcd
from .keys import Keys
from .requests import after, coded
from .saves import sync_folder

ROOT = "root"
END, NEW = ".password", ".new"
READ, WRITE = "READ", "READWRITE"
Grant = Tuple[str, bytes, bytes]


def under(kind: str, prefix: bytes) -> Grant:
    """A right to all keys that begin so."""
    return kind, prefix, after(prefix)


def roles_of(keys: Keys, replicas: List[str]) -> Dict[str, List[Grant]]:
    """The rights of each role, by its name."""
    name, reading = keys.ledger, under(READ, keys.all)
    submitting = [under(WRITE, prefix) for prefix in (keys.records, keys.ids, keys.all_pieces, keys.used(""))]
    roles = {
        f"{name}-keeper": [under(WRITE, keys.all)],
        f"{name}-submitter": [reading, *submitting, (WRITE, keys.last, b"")],
        f"{name}-reader": [reading]}
    for replica in replicas:
        roles[f"{name}-by-{replica}"] = [reading, under(WRITE, keys.by_replicas + f"{replica}/".encode())]
    return roles


def unless_there(etcd: Etcd, path: str, body: Dict[str, object]) -> None:
    """Asks for something to be made that may be there already."""
    try:
        etcd.ask(path, body)
    except LogError as why:
        if "already exists" not in str(why):
            raise


def make_role(etcd: Etcd, role: str, grants: List[Grant]) -> None:
    unless_there(etcd, "/v3/auth/role/add", {"name": role})
    for kind, first, end in grants:
        allowed = {"permType": kind, "key": coded(first), "range_end": coded(end)}
        etcd.ask("/v3/auth/role/grant", {"name": role, "perm": allowed})


def new_password(path: str) -> str:
    """Makes a password, and writes it into a file that its owner alone may read. FileExistsError where there is one."""
    password = secrets.token_urlsafe(24)
    number = os.open(path, os.O_WRONLY | os.O_CREAT | os.O_EXCL, 0o600)
    with os.fdopen(number, "w", encoding="ascii") as file:
        file.write(password + "\n")
        file.flush()
        os.fsync(file.fileno())
    return password


def change_passwords(etcd: Etcd, keys: Keys, folder: str) -> List[str]:
    """Gives each user of the ledger whose password is in the folder another one, and root, the last. Those that were changed. The new one
    stands in a file of its own until etcd has it, so it isn't lost if this is ended halfway, and is taken again the next time."""
    changed: List[str] = []
    users = [name[:-len(END)] for name in sorted(os.listdir(folder)) if name.endswith(END)]
    for user in [one for one in users if one.startswith(f"{keys.ledger}-")] + [one for one in users if one == ROOT]:
        path = os.path.join(folder, user + END)
        if os.path.exists(path + NEW):
            with open(path + NEW, encoding="ascii") as file:
                password = file.read().rstrip("\n")
        else:
            password = new_password(path + NEW)
        etcd.ask("/v3/auth/user/changepw", {"name": user, "password": password})
        os.rename(path + NEW, path)
        sync_folder(folder)
        changed.append(user)
    return changed


def make_user(etcd: Etcd, user: str, path: str) -> None:
    """Makes a user, and writes its password into a file. LogError, and no file, where it is there already, unless it has no role: then it was
    made by this, and the answer got lost."""
    password = new_password(path)
    try:
        etcd.ask("/v3/auth/user/add", {"name": user, "password": password})
    except LogError as why:
        if "already exists" not in str(why) or etcd.ask("/v3/auth/user/get", {"name": user}).get("roles"):
            os.remove(path)
            raise
        etcd.ask("/v3/auth/user/changepw", {"name": user, "password": password})


def make_users(etcd: Etcd, keys: Keys, replicas: List[str], folder: str) -> List[str]:
    """Makes what isn't there: a role and a user of the same name for each, and root. The users that were made. A user whose
    password is in the folder already is left as it is."""
    os.makedirs(folder, mode=0o700, exist_ok=True)
    roles: Dict[str, List[Grant]] = {ROOT: [], **roles_of(keys, replicas)}
    made: List[str] = []
    for role, grants in roles.items():
        make_role(etcd, role, grants)
        if os.path.exists(os.path.join(folder, f"{role}.password")):
            continue
        make_user(etcd, role, os.path.join(folder, f"{role}.password"))
        etcd.ask("/v3/auth/user/grant", {"user": role, "role": role})
        made.append(role)
    etcd.ask("/v3/auth/enable", {})
    return made
