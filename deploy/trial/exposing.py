"""A scene with TLS, users and roles: certificates are made by openssl, and nobody may do what isn't theirs."""

import subprocess
from pathlib import Path
from typing import Dict, List, Optional, Sequence, Tuple

from ledgerlog.errors import LogError
from ledgerlog.etcd import Access, Etcd
from ledgerlog.keys import LINES, Keys

from .processes import Failed, command, done
from .stage import NAMES, PATIENCE, Place, Stage, place_in

LEDGER = "exposed"
NEW_KEY = ("-newkey", "rsa:2048", "-nodes", "-keyout")


def openssl(folder: Path, *words: object) -> None:
    subprocess.run(["openssl", *map(str, words)], cwd=folder, check=True, stdout=subprocess.DEVNULL, stderr=subprocess.DEVNULL)


def made_certificates(folder: Path) -> None:
    """An authority, one certificate of it for the nodes on this machine and one for clients, and another authority that nobody
    trusts."""
    for name in ("ca", "other"):
        openssl(folder, "req", "-x509", *NEW_KEY, f"{name}.key", "-out", f"{name}.pem", "-days", 2, "-subj", f"/O={name}")
    uses = {"node": "subjectAltName=IP:127.0.0.1,DNS:localhost\nextendedKeyUsage=serverAuth,clientAuth\n",
            "client": "extendedKeyUsage=clientAuth\n"}
    for name, use in uses.items():
        openssl(folder, "req", *NEW_KEY, f"{name}.key", "-out", f"{name}.csr", "-subj", f"/O={name}")
        (folder / f"{name}.use").write_text(use)
        openssl(folder, "x509", "-req", "-in", f"{name}.csr", "-CA", "ca.pem", "-CAkey", "ca.key", "-CAcreateserial", "-days", 2,
                "-out", f"{name}.pem", "-extfile", f"{name}.use")


def client(folder: Path, user: Optional[str] = None) -> Access:
    """How a client reaches the nodes, as a user or as none."""
    password = (folder / "passwords" / f"{user}.password").read_text().strip() if user else None
    return Access(str(folder / "ca.pem"), str(folder / "client.pem"), str(folder / "client.key"), user, password)


def client_words(folder: Path) -> List[object]:
    return ["--ca", folder / "ca.pem", "--certificate", folder / "client.pem", "--key", folder / "client.key"]


def secured(folder: Path) -> Place:
    """Nodes that speak TLS alone."""
    folder.mkdir()
    made_certificates(folder)
    files = ["--ca", folder / "ca.pem", "--certificate", folder / "node.pem", "--key", folder / "node.key"]
    return place_in(folder, *files, access=client(folder))


def words_by_user(folder: Path) -> Dict[str, Sequence[object]]:
    """The words by which each of them reaches the log."""
    users = {"keeper": f"{LEDGER}-keeper", "submitter": f"{LEDGER}-submitter", "reader": f"{LEDGER}-reader", "root": "root",
             **{name: f"{LEDGER}-by-{name}" for name in NAMES}}
    return {who: (*client_words(folder), "--user", user, "--password", folder / "passwords" / f"{user}.password")
            for who, user in users.items()}


def check_rights(stage: Stage, folder: Path) -> int:
    """Failed where a user may put what isn't theirs, or may not put what is. How many puts were tried."""
    keys = Keys(LEDGER)
    owners: Dict[str, List[bytes]] = {
        f"{LEDGER}-submitter": [keys.record(999_999), keys.id("x"), keys.piece("x", 0), keys.used("x")],
        f"{LEDGER}-by-first": [keys.vote("first", LINES, 999_999)], f"{LEDGER}-by-second": [keys.vote("second", LINES, 999_999)],
        f"{LEDGER}-keeper": [], f"{LEDGER}-reader": []}
    all_keys = [key for owned in owners.values() for key in owned] + [keys.log, b"elsewhere/last"]
    tried = 0
    for user, owned in owners.items():
        etcd = Etcd(list(stage.place.addresses), PATIENCE, client(folder, user))
        for key in all_keys:
            may = key in owned or (user == f"{LEDGER}-keeper" and key.startswith(keys.all) and key != keys.log)
            if user == f"{LEDGER}-keeper" and key == keys.log:
                continue
            tried += 1
            try:
                etcd.put(key, b"tried")
                did = True
            except LogError as why:
                did = "permission denied" not in str(why)
            if did != may:
                raise Failed(f"{user} {'may' if did else 'may not'} put {key!r}")
        etcd.close()
    return tried


def refused_without(stage: Stage, folder: Path) -> None:
    """Failed where a client gets in without TLS, with another authority, or without or with a wrong password."""
    address = ["--log", ",".join(stage.place.addresses), "--ledger", LEDGER]
    (folder / "wrong").write_text("wrong\n")
    right, other = client_words(folder), ["--ca", folder / "other.pem", *client_words(folder)[2:]]
    forged = [*right[:2], "--certificate", folder / "other.pem", "--key", folder / "other.key"]
    tried: Dict[str, Tuple[Sequence[object], str]] = {
        "without TLS": ([], "no node of the log answers"), "with another authority": (other, "CERTIFICATE_VERIFY_FAILED"),
        "without a certificate": (right[:2], "no node of the log answers"),
        "with another one's certificate": (forged, "no node of the log answers"),
        "without a user": (right, "permission denied"),
        "with a wrong password": ([*right, "--user", f"{LEDGER}-submitter", "--password", folder / "wrong"],
                                  "invalid user ID or password")}
    for what, (words, says) in tried.items():
        for seconds in 5, 50, 500:
            it = command("submit", *address, "--seconds", seconds, *words, "-", given=b"\x2a\0")
            # On a busy machine no node may answer in so short a time.
            if it.returncode != 1 or says in it.stderr.decode():
                break
        if it.returncode != 1 or says not in it.stderr.decode():
            raise Failed(f"submit {what} ends with the status {it.returncode}: {it.stderr!r}")


def added_users(stage: Stage, folder: Path) -> None:
    """Makes users for two more replicas of the set, and leaves the others as they are."""
    done("log", *stage.words("keeper"), "set", "--replicas", ",".join([*NAMES, "fourth", "fifth"]))
    made = done("log", *stage.words("root"), "users", folder / "passwords").split()
    if sorted(made) != sorted(f"{LEDGER}-by-{name}" for name in ("fourth", "fifth")):
        raise Failed(f"the users that were made for a larger set are {made}")
    for name in NAMES:
        stage.replicas[name].says("the log's set of replicas is first, second, third, fourth, fifth now")
    done("log", *stage.words("keeper"), "set", "--replicas", ",".join(NAMES))


def rotated(stage: Stage, folder: Path) -> str:
    """Gives everyone another password while replicas run: they go on, and the old ones let nobody in."""
    before = {path: path.read_text() for path in (folder / "passwords").glob("*.password")}
    changed = done("log", *stage.words("root"), "passwords", folder / "passwords").split()
    if len(changed) != len(before) or any(path.read_text() == text for path, text in before.items()):
        raise Failed(f"of {len(before)} passwords those of {changed} were changed")
    stage.log.etcd.access = client(folder, "root")
    stage.all_answered(stage.feed(20))
    stage.submit(stage.given.fresh_mint())
    stage.check_running()
    (folder / "old").write_text(before[folder / "passwords" / f"{LEDGER}-reader.password"])
    old = [*client_words(folder), "--user", f"{LEDGER}-reader", "--password", folder / "old"]
    done("log", "--log", ",".join(stage.place.addresses), "--ledger", LEDGER, *old, "show", status=1, says="invalid user ID or password")
    done("backup", *stage.words("root"), folder / "backups")
    done("backup", *stage.words("root"), "--drill", folder / "backups", says="with all records")
    return f"{len(changed)} passwords changed while replicas ran: they went on, the old ones let nobody in; a backup taken and tried"


def exposed(stage: Stage, folder: Path) -> List[str]:
    """A set over TLS with users and roles."""
    reached = dict(stage.reached)
    stage.reached.update({who: client_words(folder) for who in reached})
    stage.make()
    made = done("log", *stage.words("keeper"), "users", folder / "passwords").split()
    stage.reached.update(reached)
    stage.log.etcd.access = client(folder, "root")
    stage.start()
    stage.all_answered(stage.feed(100))
    for _ in range(5):
        stage.submit(stage.given.fresh_mint())
    tried = check_rights(stage, folder)
    refused_without(stage, folder)
    done("log", *stage.words("root"), "room")
    added_users(stage, folder)
    stage.all_answered(stage.feed(20))
    stage.check_running()
    stage.verify()
    told = rotated(stage, folder)
    return [told, f"over TLS with a made certificate and {len(made)} users: records put, answered, verified, the log compacted",
            f"{tried} puts tried by five users: each may put its own keys and no others; nobody gets in without TLS, with "
            "another authority, without a certificate of this one, without a user or with a wrong password"]
