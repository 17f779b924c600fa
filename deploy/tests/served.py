"""The store in memory as a node that commands reach over HTTP."""

import json
import socket
import threading
import time
from http.server import BaseHTTPRequestHandler, ThreadingHTTPServer
from typing import Any, Dict, List, Optional

from ledgerlog.errors import Full, LogError

from .store import Store


class Served:
    """A node over a store. It refuses everything with `refusal`, where there is one."""

    def __init__(self, store: Store) -> None:
        self.refusal: Optional[Dict[str, Any]] = None
        node = self

        class Handler(BaseHTTPRequestHandler):
            protocol_version = "HTTP/1.1"

            def do_POST(self) -> None:
                body = json.loads(self.rfile.read(int(self.headers["Content-Length"])))
                try:
                    self.tell(200, node.answered(store, self.path, body))
                except Full as why:
                    self.tell(429, {"code": 8, "message": str(why)})
                except LogError:
                    self.tell(403, node.refusal or {})

            def tell(self, status: int, told: Dict[str, Any]) -> None:
                data = json.dumps(told).encode()
                try:
                    self.send_response(status)
                    self.send_header("Content-Length", str(len(data)))
                    self.end_headers()
                    self.wfile.write(data)
                except OSError:
                    self.close_connection = True

            def log_message(self, *_: object) -> None:
                pass

        self.server = ThreadingHTTPServer(("127.0.0.1", 0), Handler)
        # Clients that were killed.
        setattr(self.server, "handle_error", lambda *_: None)
        self.address = f"127.0.0.1:{self.server.server_port}"
        threading.Thread(target=self.server.serve_forever, args=(0.05,), daemon=True).start()

    def answered(self, store: Store, path: str, body: Dict[str, Any]) -> Dict[str, Any]:
        if self.refusal is not None:
            raise LogError
        if path == "/v3/watch":
            time.sleep(0.05)
            return {"result": {}}
        return store.ask(path, body)

    def words(self) -> List[str]:
        return ["--log", self.address, "--ledger", "L"]

    def close(self) -> None:
        self.server.shutdown()
        self.server.server_close()


def trickle(place: socket.socket, part: bytes, first: bytes = b"", seconds: float = 0.05) -> threading.Event:
    """Tells whoever connects the first part, and then another one again and again, with so many seconds between, until what is given back is
    set."""
    is_over = threading.Event()

    def tell(connection: socket.socket) -> None:
        with connection:
            try:
                connection.sendall(first)
                while not is_over.wait(seconds):
                    connection.sendall(part)
            except OSError:
                pass

    def take() -> None:
        while True:
            try:
                connection = place.accept()[0]
            except OSError:
                return
            threading.Thread(target=tell, args=(connection,), daemon=True).start()

    threading.Thread(target=take, daemon=True).start()
    return is_over
