"""A page in the browser for the shell, for `run --page`: it serves the page itself, and lines that are posted to it, on the loopback
address alone."""
import http.server
import json
import pathlib
import secrets
import signal
import sys

from page.session import Session, Unread, spelled_line

HERE = pathlib.Path(__file__).resolve().parent
ADDRESS = "127.0.0.1"
KINDS = {".html": "text/html", ".css": "text/css", ".js": "text/javascript"}
FILES = {f"/{name}": HERE / name for name in ("page.css", "page.js")} | {"/": HERE / "page.html"}
# The longest body of a request, in bytes, and the most random lines that one may ask for.
LONGEST, MOST_RANDOM = 1 << 18, 500
HEADERS = {
    "Content-Security-Policy": "default-src 'none'; script-src 'self'; style-src 'self'; connect-src 'self'; img-src 'self' data:; frame-ancestors 'none'; base-uri 'none'; form-action 'none'",
    "X-Content-Type-Options": "nosniff",
    "Referrer-Policy": "no-referrer",
    "Cache-Control": "no-store",
}


def scenes():
    """The scenes that are there: of each its name, its title, and its parts, each a text and the lines behind it. A text is a comment of
    one or more lines, and the first of a file is the title."""
    return [scene(file) for file in sorted((HERE / "scenes").glob("*.lines"))]


def scene(file):
    title, parts, was_text = None, [], False
    for line in file.read_text(encoding="utf-8").splitlines():
        if not line:
            continue
        is_text = line.startswith("#")
        if title is None:
            title = line.lstrip("# ")
        elif is_text and was_text:
            parts[-1]["lines"].append(line)
        elif is_text:
            parts.append({"lines": [line]})
        else:
            parts[-1]["lines"].append(line)
        was_text = is_text and title is not None and bool(parts)
    return {"name": file.stem, "title": title, "parts": [it["lines"] for it in parts]}


class Refused(Exception):
    """A request that is not answered as it was meant: its status, and why."""


class Handler(http.server.BaseHTTPRequestHandler):
    """Answers a request."""

    server_version, sys_version, timeout = "donnaveku", "", 30

    def reply(self, status, kind, body):
        self.send_response(status)
        for name, value in {"Content-Type": f"{kind}; charset=utf-8", "Content-Length": str(len(body)), **HEADERS}.items():
            self.send_header(name, value)
        self.end_headers()
        if self.command != "HEAD":
            self.wfile.write(body)

    def reply_json(self, status, value):
        self.reply(status, "application/json", json.dumps(value).encode())

    def guarded(self, answer):
        """Answers, or says why not. Only who asks for the printed address is answered at all."""
        try:
            if self.headers.get_all("Host") != [self.server.host]:
                raise Refused(403, "this page is at its printed address alone")
            answer()
        except Refused as why:
            status, text = why.args
            self.close_connection = True
            self.reply_json(status, {"why": text})

    def do_GET(self):
        self.guarded(self.answer_get)

    do_HEAD = do_GET

    def do_POST(self):
        self.guarded(self.answer_post)

    def answer_get(self):
        if self.path == "/scenes":
            self.reply_json(200, scenes())
            return
        file = FILES.get(self.path)
        if not file:
            raise Refused(404, "there is no such page")
        self.reply(200, KINDS[file.suffix], file.read_bytes().replace(b"{token}", self.server.token.encode()))

    def asked(self):
        """What a request asks for, where the page itself made it."""
        if not secrets.compare_digest(self.headers.get("X-Token", "").encode(), self.server.token.encode()):
            raise Refused(403, "the token of the page is missing: load the page again")
        if self.headers.get("Origin", f"http://{self.server.host}") != f"http://{self.server.host}":
            raise Refused(403, "another page asked")
        if self.headers.get_content_type() != "application/json":
            raise Refused(415, "lines come as JSON")
        length = self.headers.get("Content-Length", "")
        if not length.isascii() or not length.isdecimal() or int(length) > LONGEST:
            raise Refused(413, f"at most {LONGEST} bytes are read at once")
        try:
            value = json.loads(self.rfile.read(int(length)))
        except ValueError:
            raise Refused(400, "this is no JSON") from None
        if not isinstance(value, dict):
            raise Refused(400, "this is no object")
        return value

    def answer_post(self):
        value = self.asked()
        does = {"/run": run, "/type": typed, "/start": start, "/random": at_random, "/crash": crash}.get(self.path)
        if not does:
            raise Refused(404, "there is nothing to post to here")
        session = self.server.session
        with session.lock:
            session.columns, session.is_kept_shown = 2 if value.get("narrow") is True else 4, value.get("kept") is True
            self.reply_json(200, does(session, value))

    def log_message(self, *_):
        """Nothing is printed of requests."""


def lines_in(value):
    lines = value.get("lines", [])
    if not isinstance(lines, list) or not all(isinstance(it, str) for it in lines):
        raise Refused(400, "`lines` is a list of strings")
    return lines


def number_in(value, name, most):
    number = value.get(name)
    if not isinstance(number, int) or not 0 <= number <= most:
        raise Refused(400, f"`{name}` is a number up to {most}")
    return number


def told(session, first, why=None):
    """All that the page shows. The lines from the first of these on are new."""
    session.first = first
    return {**session.state(), "first": first, "why": why}


def run_all(session, lines):
    """Runs lines up to the first that is not to be run: why it is not."""
    try:
        for line in lines:
            session.add(line)
    except Unread as why:
        return f"`{line}` was not run: {why}"
    return None


def run(session, value):
    lines = lines_in(value)
    first = len(session.lines) if lines else session.first
    return told(session, first, run_all(session, lines))


def typed(session, value):
    """Runs a line that somebody typed, in which quotes hold any bytes."""
    [text] = lines_in(value) or [""]
    try:
        return run(session, {"lines": [spelled_line(text)]})
    except Unread as why:
        return told(session, len(session.lines), f"`{text}` was not run: {why}")


def start(session, value):
    """Begins anew, with these lines. New are those behind the last comment."""
    session.start([])
    why = run_all(session, lines_in(value))
    comments = [at for at, it in enumerate(session.lines) if it["line"].startswith("#")]
    return told(session, max(comments, default=len(session.lines) - 1), why)


def at_random(session, value):
    first = len(session.lines)
    session.random(number_in(value, "count", MOST_RANDOM), number_in(value, "seed", 2**53))
    return told(session, first)


def crash(session, value):
    return session.crash(number_in(value, "keep", 2**53))


class Server(http.server.ThreadingHTTPServer):
    """Serves one session to whoever has the page."""

    daemon_threads = True

    def __init__(self, path):
        super().__init__((ADDRESS, 0), Handler)
        self.host = f"{ADDRESS}:{self.server_address[1]}"
        self.token, self.session = secrets.token_urlsafe(18), Session(path)

    def handle_error(self, request, address):
        """A browser that hangs up is no fault."""
        if not isinstance(sys.exception() if hasattr(sys, "exception") else sys.exc_info()[1], (ConnectionError, TimeoutError)):
            super().handle_error(request, address)


def serve(path):
    """Serves the page until somebody ends it, as its terminal does at its own end."""
    for number in (signal.SIGHUP, signal.SIGTERM):
        signal.signal(number, lambda number, _: sys.exit(128 + number))
    with Server(path) as server:
        print(f"http://{server.host}/", flush=True)
        try:
            server.serve_forever()
        finally:
            server.session.close()
