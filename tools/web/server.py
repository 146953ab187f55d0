"""The server of `tools/workbench`: who may ask, what may be asked, and how long a request may be.

A request must have the secret word as the first part of its path, and the Host header that was printed. One of another
origin is refused. It names a part of the page or a command, and never a file of the disk: texts come in its body, as
JSON.
"""

import hmac
import json
import threading
from contextlib import contextmanager
from http.server import BaseHTTPRequestHandler, ThreadingHTTPServer
from socket import AF_INET, AF_INET6, SHUT_RDWR

from common import LONGEST
from web.runs import Client, Ended, Gone

# How many bytes a body may have beside its texts. A byte of a text may take six in JSON.
BESIDE = 4096
LONGEST_SPELLING = 6
MOST_CONNECTIONS = 64
SECONDS_TO_READ = 10

HEADERS = {
    "Content-Security-Policy": "default-src 'none'; script-src 'self'; style-src 'self'; connect-src 'self'; "
                               "img-src data:; base-uri 'none'; form-action 'none'; frame-ancestors 'none'",
    "Cache-Control": "no-store", "Referrer-Policy": "no-referrer", "X-Content-Type-Options": "nosniff",
    "Cross-Origin-Opener-Policy": "same-origin", "Cross-Origin-Resource-Policy": "same-origin",
    "X-Frame-Options": "DENY",
}


class Refused(Exception):
    """The request isn't answered. The arguments are a status of HTTP, and why."""


class Workbench(ThreadingHTTPServer):
    """Answers at an address. `parts` has what may be read by its names, and `answers` is asked of each command."""

    daemon_threads = True
    request_queue_size = 256

    def __init__(self, address, secret, parts, answers):
        self.address_family = AF_INET6 if ":" in address else AF_INET
        self.secret, self.parts, self.answers = secret, parts, answers
        self.connections = threading.Semaphore(MOST_CONNECTIONS)
        super().__init__((address, 0), Request)
        self.host = f"[{address}]:{self.server_port}" if ":" in address else f"{address}:{self.server_port}"

    def server_bind(self):
        """As the library does it, but without asking for the name of the machine."""
        self.socket.bind(self.server_address)
        self.server_address = self.socket.getsockname()
        self.server_name, self.server_port = self.server_address[:2]

    def process_request(self, request, client_address):
        """Others wait in the system's queue while there are as many connections as may be."""
        self.connections.acquire()
        try:
            super().process_request(request, client_address)
        except Exception:
            self.connections.release()
            raise

    def process_request_thread(self, request, client_address):
        try:
            super().process_request_thread(request, client_address)
        finally:
            self.connections.release()

    def handle_error(self, request, client_address):
        """A client that goes away in the middle is no error."""


class Request(BaseHTTPRequestHandler):
    """One request, and its answer. The connection is closed behind it."""

    timeout = SECONDS_TO_READ

    def handle(self):
        """Reads the request and answers it. Its head must come in time."""
        with self.in_time() as self.head_timer:
            super().handle()

    def do_GET(self):
        self.answer(self.read_part)

    def do_POST(self):
        self.answer(self.ask)

    @contextmanager
    def in_time(self):
        """Closes the connection unless what is done here ends in time, or the timer is cancelled."""
        timer = threading.Timer(SECONDS_TO_READ, self.shut)
        timer.daemon = True
        timer.start()
        try:
            yield timer
        finally:
            timer.cancel()

    def shut(self):
        try:
            self.connection.shutdown(SHUT_RDWR)
        except OSError:
            pass

    def answer(self, act):
        self.head_timer.cancel()
        try:
            self.require_right()
            act()
        except (Refused, Ended) as refused:
            self.refuse(refused.args[0], refused.args[1])
        except (Gone, OSError):
            self.close_connection = True

    # ---- who may ask

    def require_right(self):
        """The secret word, the host, and the origin."""
        self.name = self.name_behind_secret()
        if self.headers.get_all("Host", []) != [self.server.host]:
            raise Refused(403, "the Host isn't that of this workbench")
        origins = self.headers.get_all("Origin", [])
        if origins not in ([], [f"http://{self.server.host}"]) or (self.command == "POST" and not origins):
            raise Refused(403, "a page of another origin can't ask this workbench")
        opens_page = self.headers.get("Sec-Fetch-Mode") == "navigate" and self.name == ""
        if self.headers.get("Sec-Fetch-Site") not in (None, "same-origin", "none") and not opens_page:
            raise Refused(403, "a page of another site can't ask this workbench")

    def name_behind_secret(self):
        _, first, *rest = self.path.partition("?")[0].split("/", 2) if self.path.startswith("/") else ("", "")
        if not hmac.compare_digest(first.encode("utf-8", "replace"), self.server.secret.encode()):
            raise Refused(403, "the address lacks the secret word that was printed")
        if not rest:
            raise Refused(404, "the address ends with a slash")
        return rest[0]

    # ---- what may be asked

    def read_part(self):
        """A part of the page. Its name is looked up, and is no name of a file."""
        if self.name not in self.server.parts:
            raise Refused(404, "the workbench has no such part")
        self.write(200, *self.server.parts[self.name])

    def ask(self):
        """A command on texts. Its program ends when the client goes away."""
        if self.headers.get_content_type() != "application/json":
            raise Refused(415, "a request is JSON")
        if self.name not in self.server.answers.names:
            raise Refused(404, "the workbench has no such command")
        length, client = self.length(), Client(self.connection)
        with self.server.answers.turn(client):
            told = self.server.answers.answer(self.name, self.read_body(length), client)
        self.write(200, "application/json", json.dumps(told).encode())

    def length(self):
        """How long the body is. It may be as long as the command's texts together."""
        word = self.headers.get("Content-Length", "")
        if not (word.isascii() and word.isdigit()) or "Transfer-Encoding" in self.headers:
            raise Refused(411, "a request says how long it is")
        kinds = self.server.answers.texts_of(self.name)
        if len(word) > 12 or int(word) > BESIDE + LONGEST_SPELLING * sum(LONGEST[kind] for kind in kinds):
            raise Refused(413, "the request is longer than its texts may be")
        return int(word)

    def read_body(self, length):
        """The values of the body, texts or numbers. Texts are bytes from here on, as long as their formats allow."""
        with self.in_time():
            body = self.rfile.read(length)
        try:
            values = json.loads(body.decode("utf-8"))
            texts = {name: value.encode("utf-8") for name, value in values.items() if name in LONGEST}
        except (ValueError, AttributeError, RecursionError):
            raise Refused(400, "the request isn't JSON with texts") from None
        for name, text in texts.items():
            if len(text) > LONGEST[name]:
                raise Refused(413, f"the {name} has {len(text):,} bytes, and at most {LONGEST[name]:,}")
        return {**values, **texts}

    # ---- the answer

    def refuse(self, status, words):
        self.write(status, "application/json", json.dumps({"error": words}).encode())

    def send_error(self, code, message=None, explain=None):
        """What the library refuses: a request that isn't one of HTTP, or of another method."""
        self.refuse(code, "this is no request that the workbench takes")

    def write(self, status, kind, body):
        self.close_connection = True
        self.send_response(status)
        own = {"Content-Type": kind, "Content-Length": len(body), "Connection": "close"}
        for name, value in {**HEADERS, **own}.items():
            self.send_header(name, value)
        self.end_headers()
        self.wfile.write(body)

    def version_string(self):
        return "workbench"

    def log_message(self, *_):
        """Nothing is kept of requests."""
