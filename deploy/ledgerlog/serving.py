"""The metrics of a replica over HTTP: what Prometheus asks for, on the loopback interface. A replica that is dead doesn't answer."""

import threading
from http.server import BaseHTTPRequestHandler, ThreadingHTTPServer

from .status import Status

KIND = "text/plain; version=0.0.4; charset=utf-8"


class Metrics:
    """A port that answers GET /metrics and nothing else."""

    def __init__(self, port: int, status: Status) -> None:
        """OSError where the port can't be had."""

        class Handler(BaseHTTPRequestHandler):
            timeout = 30

            def do_GET(self) -> None:
                is_known = self.path == "/metrics"
                data = status.metrics().encode() if is_known else b"/metrics is all that there is\n"
                self.send_response(200 if is_known else 404)
                self.send_header("Content-Type", KIND)
                self.send_header("Content-Length", str(len(data)))
                self.end_headers()
                self.wfile.write(data)

            def log_message(self, *_: object) -> None:
                pass

        self.server = ThreadingHTTPServer(("127.0.0.1", port), Handler)
        self.server.daemon_threads = True
        # Whoever asks may go away meanwhile.
        setattr(self.server, "handle_error", lambda *_: None)
        threading.Thread(target=self.server.serve_forever, daemon=True).start()

    @property
    def port(self) -> int:
        return int(self.server.server_port)

    def close(self) -> None:
        self.server.shutdown()
        self.server.server_close()
