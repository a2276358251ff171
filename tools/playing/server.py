"""The server of the page. It is on 127.0.0.1 alone, and gives nothing to another site: each path begins with a secret, Host and Origin
must be its own, and no path of the machine is read but those that are listed here."""
import http.server
import json
import pathlib
import secrets
import threading

from directives import words_for
from looking.turns import TOP
from machine_model import BatchMachine, Machine, SourceMachine

from .workers import Ended, Worker, Workers

HERE = pathlib.Path(__file__).resolve().parent
MIRROR = pathlib.Path("/usr/share/javascript/codemirror")
EDITOR = {"codemirror.js": "lib/codemirror.js", "codemirror.css": "lib/codemirror.css", "show-hint.js": "addon/hint/show-hint.js",
          "show-hint.css": "addon/hint/show-hint.css"}
KINDS = {".js": "text/javascript", ".css": "text/css", ".html": "text/html", ".json": "application/json", ".txt": "text/plain"}
MOST_BYTES = 1 << 20
POLICY = ("default-src 'none'; script-src 'self'; style-src 'self' 'unsafe-inline'; connect-src 'self'; base-uri 'none'; form-action 'none'; "
          "frame-ancestors 'none'")
STARTER = "first"


def examples():
    """Returns the examples that one plays, by their names: the word, how many frames, and the text."""
    found = {}
    for path in sorted((TOP / "examples").glob("*.vms")):
        word, *options = words_for(path)
        if word in ("run", "batch", "sources") and not any(path.with_suffix(it).exists() for it in (".status", ".sink")):
            frames = int(options[1]) if options[:1] == ["--frames"] else 1024
            found[path.stem] = {"word": word, "frames": frames, "script": path.read_text()}
    return found


class Site:
    """What a page is made of, by its paths below a secret."""

    def __init__(self, page, start, names):
        self.secret = secrets.token_urlsafe(18)
        has_editor = "@EDITOR@" in page and all((MIRROR / it).is_file() for it in EDITOR.values())
        page = page.replace("@EDITOR@", (HERE / "editor.html").read_text(encoding="utf-8").strip() if has_editor else "")
        self.files = {"": (page.encode(), ".html"), "start.json": (json.dumps(start).encode(), ".json")}
        self.files |= {name: ((HERE / name).read_bytes(), pathlib.Path(name).suffix) for name in names}
        if has_editor:
            self.files |= {name: ((MIRROR / it).read_bytes(), pathlib.Path(name).suffix) for name, it in EDITOR.items()}

    def read(self, path):
        """Returns the file at a path below the secret with its kind, or None."""
        before, _, name = path.removeprefix("/").partition("/")
        return self.files.get(name) if secrets.compare_digest(before.encode(), self.secret.encode()) else None


class Editor(Site):
    """The page at which one types a script."""

    def __init__(self, given, answerer, command):
        forms = {word: {name: [*form] for name, form in it.forms.items()}
                 for word, it in (("run", Machine), ("batch", BatchMachine), ("sources", SourceMachine))}
        start = {"forms": forms, "examples": examples(), "given": given, "name": given["name"], "answerer": answerer}
        super().__init__((HERE / "page.html").read_text(encoding="utf-8"), start, ("play.js", "play.css"))
        self.workers = Workers(command)

    def ask(self, request):
        """Returns the answer to a request. The last one of a tab wins."""
        kind = str(request["tab"])[:40], bool(request["all"])
        try:
            return self.workers.ask(kind, request)
        except Ended as ended:
            return json.dumps({"error": str(ended), "lines": [], "view": None, "cost": [], "columns": []}).encode()

    def end(self):
        """Ends the processes that answer."""
        self.workers.end()


class Reader(Site):
    """The page that shows a long script, of which one process plays as much as is asked for."""

    def __init__(self, given, answerer, command):
        start = {"name": given["name"], "word": given["word"], "frames": given["frames"], "answerer": answerer}
        super().__init__((HERE / "long.html").read_text(encoding="utf-8"), start, ("long.js", "play.css", "long.css"))
        self.given, self.command = given, command
        self.lock, self.worker = threading.Lock(), None

    def ask(self, request):
        """Returns the answer to a request. They are answered one after another, since the script is played but once."""
        if not isinstance(request, dict):
            raise ValueError("not a request of the page")
        with self.lock:
            try:
                if not self.worker:
                    self.worker = Worker(self.command)
                    self.worker.ask(self.given)
                return self.worker.ask(request)
            except Ended as ended:
                self.worker.end()
                self.worker = None
                return json.dumps({"error": str(ended)}).encode()

    def end(self):
        """Ends the process that answers."""
        worker = self.worker
        if worker:
            worker.end()


class Handler(http.server.BaseHTTPRequestHandler):
    """Answers a request."""

    timeout = 30

    def is_own(self):
        """Returns whether a request is from the page or from the address line of a browser, and none of another site."""
        own = [f"{host}:{self.server.server_address[1]}" for host in ("127.0.0.1", "localhost")]
        origin = self.headers.get("Origin")
        return (self.headers.get("Host") in own and (origin is None or origin in [f"http://{it}" for it in own])
                and self.headers.get("Sec-Fetch-Site", "none") in ("none", "same-origin"))

    def send(self, status, body, kind=".txt"):
        """Sends an answer."""
        self.send_response(status)
        headers = {"Content-Type": f"{KINDS[kind]}; charset=utf-8", "Content-Length": str(len(body)), "Cache-Control": "no-store",
                   "Content-Security-Policy": POLICY, "X-Content-Type-Options": "nosniff", "Referrer-Policy": "no-referrer",
                   "Cross-Origin-Resource-Policy": "same-origin"}
        for name, value in headers.items():
            self.send_header(name, value)
        self.end_headers()
        self.wfile.write(body)

    def do_GET(self):
        """Sends a file of the page."""
        found = self.server.site.read(self.path) if self.is_own() else None
        if found:
            self.send(200, *found)
        else:
            self.send(404 if self.is_own() else 403, b"nothing is here\n")

    def do_POST(self):
        """Answers a script."""
        before, _, name = self.path.removeprefix("/").partition("/")
        site = self.server.site
        if not self.is_own() or self.headers.get("Origin") is None or not secrets.compare_digest(before.encode(), site.secret.encode()):
            return self.send(403, b"nothing is here\n")
        length = self.headers.get("Content-Length", "")
        if not (length.isascii() and length.isdigit()) or int(length) > MOST_BYTES:
            self.close_connection = True
            return self.send(413, f"at most {MOST_BYTES} bytes\n".encode())
        try:
            return self.send(200, site.ask(json.loads(self.rfile.read(int(length)))), ".json")
        except (ValueError, KeyError, TypeError, RecursionError):
            return self.send(400, b"not a request of the page\n")

    def log_message(self, *_):
        """Says nothing of a request."""


class Server(http.server.ThreadingHTTPServer):
    """The server of a site."""

    daemon_threads = True

    def __init__(self, site, port):
        self.site = site
        super().__init__(("127.0.0.1", port), Handler)

    def address(self):
        """Returns the address of the page."""
        return f"http://127.0.0.1:{self.server_address[1]}/{self.site.secret}/"

    def handle_error(self, *_):
        """Says nothing of a reader that went away."""
