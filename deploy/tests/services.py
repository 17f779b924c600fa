"""A submit service over a store in memory, for tests: at a socket, and at a port with TLS."""

import os
import subprocess
import tempfile
import threading
import unittest
from typing import Any, Callable, Dict, List

from ledgerlog.client import Ledger, Tls
from ledgerlog.etcd import Access
from ledgerlog.log import Log
from ledgerlog.service import Port, Service

from .store import PATIENCE, Store, made_log


class ServiceCase(unittest.TestCase):
    """A service at a socket."""

    def setUp(self) -> None:
        holder = tempfile.TemporaryDirectory()
        self.addCleanup(holder.cleanup)
        self.path = os.path.join(holder.name, "service", "socket")
        os.mkdir(os.path.dirname(self.path))
        self.store = Store()
        self.log = made_log(self.store, quotas={"poor": 8})
        self.service = self.start()

    def start(self) -> Service:
        service = Service(self.path, lambda: Log(self.store, "L"))
        service.start()
        threading.Thread(target=service.serve, daemon=True).start()
        self.addCleanup(lambda: service.close() if service.socket.fileno() >= 0 else None)
        return service

    def ledger(self, submitter: str = "anyone", seconds: float = PATIENCE) -> Ledger:
        made = Ledger(self.path, submitter, seconds)
        self.addCleanup(made.close)
        return made

    def at_once(self, *calls: Callable[[], Any]) -> List[Any]:
        """What calls come back with that are made at once."""
        told: Dict[int, Any] = {}

        def work(at: int, call: Callable[[], Any]) -> None:
            try:
                told[at] = call()
            except Exception as why:  # noqa: BLE001
                told[at] = why

        threads = [threading.Thread(target=work, args=one) for one in enumerate(calls)]
        for thread in threads:
            thread.start()
        for thread in threads:
            thread.join()
        return [told[at] for at in range(len(calls))]


def certified(folder: str, *names: str) -> None:
    """An authority, a certificate of it for a service on this machine, and one for each of these submitters."""
    def openssl(*words: str) -> None:
        subprocess.run(["openssl", *words], cwd=folder, check=True, stdout=subprocess.DEVNULL, stderr=subprocess.DEVNULL)

    new = ("-newkey", "rsa:2048", "-nodes", "-keyout")
    openssl("req", "-x509", *new, "ca.key", "-out", "ca.pem", "-days", "2", "-subj", "/O=ca")
    for name in ("service", *names):
        use = "subjectAltName=IP:127.0.0.1\nextendedKeyUsage=serverAuth,clientAuth\n" if name == "service" else "extendedKeyUsage=clientAuth\n"
        with open(os.path.join(folder, "use"), "w", encoding="ascii") as file:
            file.write(use)
        openssl("req", *new, f"{name}.key", "-out", f"{name}.csr", "-subj", f"/CN={name}")
        openssl("x509", "-req", "-in", f"{name}.csr", "-CA", "ca.pem", "-CAkey", "ca.key", "-CAcreateserial", "-days", "2", "-out",
                f"{name}.pem", "-extfile", "use")


class TlsCase(unittest.TestCase):
    """A service at a port too, with certificates for some submitters."""

    quotas: Dict[str, int] = {"alice": 8}
    holder: "tempfile.TemporaryDirectory[str]"

    @classmethod
    def setUpClass(cls) -> None:
        cls.holder = tempfile.TemporaryDirectory()
        certified(cls.holder.name, "alice", "no name")

    @classmethod
    def tearDownClass(cls) -> None:
        cls.holder.cleanup()

    def setUp(self) -> None:
        folder = tempfile.TemporaryDirectory()
        self.addCleanup(folder.cleanup)
        self.store = Store()
        self.log = made_log(self.store, quotas=self.quotas)
        self.socket = os.path.join(folder.name, "socket")
        access = Access(self.file("ca.pem"), self.file("service.pem"), self.file("service.key"))
        self.service = Service(self.socket, lambda: Log(self.store, "L"), Port("127.0.0.1", 0, access))
        self.service.start()
        threading.Thread(target=self.service.serve, daemon=True).start()
        self.addCleanup(self.service.close)
        assert self.service.port is not None
        self.place = f"127.0.0.1:{self.service.port.getsockname()[1]}"

    def file(self, name: str) -> str:
        return os.path.join(self.holder.name, name)

    def tls(self, name: str) -> Tls:
        return Tls(self.file("ca.pem"), self.file(f"{name}.pem"), self.file(f"{name}.key"))

    def ledger(self, name: str, seconds: float = PATIENCE, submitter: str = "bob") -> Ledger:
        made = Ledger(self.place, submitter, seconds, self.tls(name))
        self.addCleanup(made.close)
        return made
