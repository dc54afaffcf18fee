"""What a watcher knows, over HTTP on this machine: it is read, and nothing can be changed.

GET and HEAD of /metrics (text for Prometheus), /lsdb (an LSA a line, in hexadecimal), /table (all
routing tables, `ospfd table all --json`), /failures (`ospfd failures all --json=2`) and /events
(the last events, a JSON object a line). Anything else is refused.
"""
import argparse
import http.server
import ipaddress
import threading
import urllib.parse

from watching import asking, report

# So many are answered at a time; each has so many seconds for its request.
MOST_AT_ONCE, SECONDS_TO_ASK = 16, 5
TEXT, JSON, LINES = "text/plain; charset=utf-8", "application/json", "application/x-ndjson"
# The names by which this machine asks itself. A page of another site that a browser shows could
# have its own name lead here (DNS rebinding), so others are refused.
NAMES = {"localhost"}
GAUGES = (
    ("lsas", "LSAs in the LSDB"),
    ("routers", "router-LSAs in the LSDB"),
    ("networks", "network-LSAs in the LSDB"),
    ("single_points", "failures that cut off a prefix which does not fail itself"),
    ("stranded", "routers that had a route through a neighbor and have none"),
)
EVENTS = ("change", "prefix", "settled", "trouble")
TAKEN = ("installed", "refreshed", "aged-out", "flushed")


def address(word):
    """An address of this machine alone, and a port."""
    host, _, port = word.rpartition(":")
    try:
        found = ipaddress.ip_address(host.strip("[]"))
        number = int(port)
        if not found.is_loopback or found.version != 4 or not 0 <= number < 65536:
            raise ValueError(word)
    except ValueError:
        raise argparse.ArgumentTypeError(
            f"{word}: not an address of this machine alone with a port, such as 127.0.0.1:8080"
        ) from None
    return str(found), number


class Kept:
    """What the program said of the LSDB, until that changes."""

    def __init__(self, watcher, ask):
        self.watcher, self.ask, self.lock = watcher, ask, threading.Lock()
        self.version, self.said = None, ""

    def get(self):
        with self.lock:
            text, version = self.watcher.copy()
            if self.version != version:
                self.said, self.version = self.ask(text), version
            return self.said


def metrics(state):
    """The numbers, as Prometheus reads them."""
    lines = []
    for name, what in GAUGES:
        lines += [f"# HELP ospf_watch_{name} {what}", f"# TYPE ospf_watch_{name} gauge",
                  f"ospf_watch_{name} {state[name]}"]
    lines += ["# HELP ospf_watch_settled whether the area is at rest",
              "# TYPE ospf_watch_settled gauge", f"ospf_watch_settled {int(state['is_settled'])}"]
    if state["last"] is not None:
        lines += ["# HELP ospf_watch_last_lsa_seconds when the last LSA came, since 1970",
                  "# TYPE ospf_watch_last_lsa_seconds gauge",
                  f"ospf_watch_last_lsa_seconds {state['last']:.3f}"]
    lines += ["# HELP ospf_watch_events_total events that were told, by kind",
              "# TYPE ospf_watch_events_total counter"]
    counts = state["counts"]
    lines += [f'ospf_watch_events_total{{event="{it}"}} {counts.get(it, 0)}' for it in EVENTS]
    lines += ["# HELP ospf_watch_lsas_total LSAs that came, by what became of them",
              "# TYPE ospf_watch_lsas_total counter"]
    lines += [f'ospf_watch_lsas_total{{event="{it}"}} {counts.get(f"lsas {it}", 0)}'
              for it in TAKEN]
    lines += ["# HELP ospf_watch_refused_lines_total lines that were passed over",
              "# TYPE ospf_watch_refused_lines_total counter",
              f"ospf_watch_refused_lines_total {counts.get('refused', 0)}"]
    return "".join(f"{line}\n" for line in lines)


class Answer(http.server.BaseHTTPRequestHandler):
    """Answers one request, and closes."""

    server_version, sys_version, protocol_version = "ospfd-watch", "", "HTTP/1.1"
    timeout = SECONDS_TO_ASK

    def do_GET(self):
        self.answer(True)

    def do_HEAD(self):
        self.answer(False)

    def answer(self, has_body):
        self.close_connection = True
        if not self.is_for_us():
            return self.send(403, TEXT, "this answers to names of this machine alone\n", has_body)
        found = self.server.pages.get(urllib.parse.urlsplit(self.path).path)
        if found is None:
            paths = " ".join(sorted(self.server.pages))
            return self.send(404, TEXT, f"nothing here: there are {paths}\n", has_body)
        kind, make = found
        try:
            return self.send(200, kind, make(), has_body)
        except asking.Trouble as fault:
            return self.send(503, TEXT, f"{fault}\n", has_body)

    def is_for_us(self):
        """Whether the request names this machine."""
        names = self.headers.get_all("Host") or []
        if len(names) != 1:
            return False
        host = names[0].rpartition(":")[0] if ":" in names[0] else names[0]
        return host.lower() in NAMES | {self.server.server_address[0]}

    def send(self, status, kind, text, has_body):
        body = text.encode()
        self.send_response(status)
        self.send_header("Content-Type", kind)
        self.send_header("Content-Length", str(len(body)))
        self.send_header("Cache-Control", "no-store")
        self.send_header("X-Content-Type-Options", "nosniff")
        self.send_header("Connection", "close")
        self.end_headers()
        if has_body:
            self.wfile.write(body)

    def log_message(self, *_):
        """Nothing is said of requests."""


class Server(http.server.ThreadingHTTPServer):
    """Answers a bounded number of requests at a time; more are closed unanswered."""

    daemon_threads, request_queue_size = True, MOST_AT_ONCE

    def __init__(self, where, pages):
        self.pages, self.free = pages, threading.BoundedSemaphore(MOST_AT_ONCE)
        super().__init__(where, Answer)

    def process_request(self, request, client_address):
        if not self.free.acquire(blocking=False):
            self.shutdown_request(request)
            return
        super().process_request(request, client_address)

    def process_request_thread(self, request, client_address):
        try:
            super().process_request_thread(request, client_address)
        finally:
            self.free.release()

    def handle_error(self, *_):
        """A client that goes away is none of our business."""


def pages_of(watcher):
    tables = Kept(watcher, watcher.program.tables)
    failures = Kept(watcher, watcher.program.failures)
    return {
        "/metrics": ("text/plain; version=0.0.4; charset=utf-8", lambda: metrics(watcher.state())),
        "/lsdb": (TEXT, watcher.now_text),
        "/table": (JSON, tables.get),
        "/failures": (LINES, failures.get),
        "/events": (LINES, lambda: "".join(f"{report.as_json(it)}\n" for it in watcher.recent())),
    }


def start(where, watcher):
    """Starts to answer, in threads of its own."""
    server = Server(where, pages_of(watcher))
    threading.Thread(target=server.serve_forever, daemon=True).start()
    return server
