"""The page's server: on this machine alone, for requests that carry its token, and with no file but the page's own."""
import http.server
import json
import os
import secrets
import socket
import threading
import urllib.parse

from program import TOP, Ended

LONGEST = 1 << 20  # bytes of a body
LONGEST_TEXT = 1 << 18  # bytes of a text in it
DRAINED = 1 << 26  # bytes of a body that is refused which are still read, so that the answer is heard
CHILDREN = 4
FOLDER = os.path.join(TOP, "playground")
TYPES = {".html": "text/html", ".js": "text/javascript", ".css": "text/css", ".svg": "image/svg+xml"}
POLICY = ("default-src 'none'; script-src 'self'; style-src 'self'; img-src 'self' data: blob:; connect-src 'self'; "
          "base-uri 'none'; form-action 'none'; frame-ancestors 'none'")
HEADERS = {"Content-Security-Policy": POLICY, "X-Content-Type-Options": "nosniff", "Referrer-Policy": "no-referrer",
           "Cache-Control": "no-store", "Cross-Origin-Resource-Policy": "same-origin", "Cross-Origin-Opener-Policy": "same-origin"}


class Refused(Exception):
    """A request that is refused: its status and a sentence."""

    def __init__(self, status, sentence):
        super().__init__(sentence)
        self.status, self.sentence = status, sentence


def read(*parts):
    with open(os.path.join(*parts), "rb") as file:
        return file.read()


def files_of_page():
    """The page's own files, by name."""
    files = {}
    for name in sorted(os.listdir(FOLDER)):
        ending = os.path.splitext(name)[1]
        if ending in TYPES and name != "run.html":
            files[name] = (TYPES[ending] + "; charset=utf-8", read(FOLDER, name))
    files[""] = files.pop("index.html")
    return files


def gallery():
    """The charts and texts of the examples, with their ticks."""
    folder, texts = os.path.join(TOP, "examples"), []
    for place in (folder, os.path.join(folder, "extended"), os.path.join(folder, "refused")):
        names = sorted(name for name in os.listdir(place) if name.endswith((".chart", ".extended", ".scl")))
        for name in sorted(names, key=lambda name: name.endswith(".scl")):
            ticks = os.path.join(place, os.path.splitext(name)[0] + ".ticks")
            texts.append({"name": os.path.relpath(os.path.join(place, name), folder), "text": read(place, name).decode(),
                          "ticks": read(ticks).decode() if os.path.exists(ticks) else ""})
    return texts


def as_json(value):
    return json.dumps(value, sort_keys=True).encode()


class Answers:
    """What is answered to each kind of question."""

    def __init__(self, program):
        self.program, self.turns = program, threading.Semaphore(CHILDREN)

    def of(self, name, asked):
        answer = {"check": self.check, "run": self.run, "views": self.views, "image": self.image}.get(name)
        if answer is None:
            raise Refused(404, "The page has nothing of this name.")
        text = asked.get("text") if isinstance(asked, dict) else None
        if not isinstance(text, str):
            raise Refused(400, "The request has no text.")
        if len(text.encode("utf-8", "surrogatepass")) > LONGEST_TEXT:
            raise Refused(413, f"The text has more than {LONGEST_TEXT} bytes.")
        with self.turns:
            try:
                return answer(text, asked)
            except Ended as ended:
                raise Refused(502, str(ended)) from ended

    def check(self, text, _):
        return self.program.check(text)

    def views(self, text, _):
        return {"expanded": "", **self.program.views(text)}

    def image(self, text, _):
        image, fault = self.program.image(text)
        return {"image": image.hex() if image else "", "fault": fault}

    def run(self, text, asked):
        """Plays all ticks, and tells of those from the one asked for on."""
        lines, first = asked.get("ticks"), asked.get("from", 0)
        if not isinstance(lines, list) or not all(isinstance(line, str) and "\n" not in line for line in lines):
            raise Refused(400, "The ticks of the request are no list of lines.")
        if not isinstance(first, int) or first < 0:
            raise Refused(400, "The request begins at no tick.")
        image, fault = self.program.image(text)
        if image is None:
            return {"refused": fault}
        return of_run(self.program, text, image, lines, first)


def of_run(program, text, image, lines, first=0):
    """The output of each tick, the locals, and the active states, or why there are none."""
    printed, states, fault = program.played(image, lines, text)
    locals_after = program.locals_in(text, lines[:len(printed)], printed)
    return {"lines": printed[first:], "fault": fault, "states": states[first:],
            "locals": locals_after[first:] if locals_after is not None else None}


class Handler(http.server.BaseHTTPRequestHandler):
    protocol_version = "HTTP/1.1"
    server_version, sys_version, default_request_version = "play", "", "HTTP/1.1"
    timeout = 20

    def log_message(self, *_):
        """Nothing is told of requests."""

    def send_error(self, code, message=None, explain=None):
        self.answer(code, "application/json", as_json({"sentence": message or "The request was not understood."}), close=True)

    def answer(self, status, kind, body, close=False):
        self.send_response(status)
        for name, value in HEADERS.items():
            self.send_header(name, value)
        self.send_header("Content-Type", kind)
        self.send_header("Content-Length", str(len(body)))
        if close:
            self.send_header("Connection", "close")
            self.close_connection = True
        self.end_headers()
        self.wfile.write(body)
        self.wfile.flush()

    def name_asked(self):
        """The name behind the token, where the request comes from the page and from this machine."""
        own = self.server.own
        if self.headers.get_all("Host", []) != [own]:
            raise Refused(403, "The request is for another host.")
        origins = self.headers.get_all("Origin", [])
        if origins and origins != [f"http://{own}"]:
            raise Refused(403, "The request comes from another origin.")
        if self.command == "POST" and not origins:
            raise Refused(403, "The request does not say where it comes from.")
        if self.headers.get("Sec-Fetch-Site", "none") not in ("same-origin", "none"):
            raise Refused(403, "The request comes from another page.")
        parts = self.path.split("/", 2)
        token = parts[1] if len(parts) == 3 and not parts[0] else ""
        if not secrets.compare_digest(token.encode("utf-8", "replace"), self.server.token.encode()):
            raise Refused(403, "The request does not carry the token.")
        return parts[2]

    def body(self):
        if "Transfer-Encoding" in self.headers:
            raise Refused(411, "The request does not say how long it is.")
        length = self.headers.get("Content-Length", "")
        if not (length.isascii() and length.isdigit() and len(length) < 16):
            raise Refused(411, "The request does not say how long it is.")
        if int(length) > LONGEST:
            raise Refused(413, f"The request has more than {LONGEST} bytes.")
        body = self.rfile.read(int(length))
        if len(body) < int(length):
            raise Refused(400, "The request ends too early.")
        try:
            return json.loads(body)
        except (ValueError, RecursionError) as error:
            raise Refused(400, "The request is no JSON.") from error

    def refuse(self, refused):
        self.answer(refused.status, "application/json", as_json({"sentence": refused.sentence}), close=True)
        self.drain()

    def drain(self):
        """Reads what is left of a body that was refused: a browser that still writes hears no answer."""
        left = min(int(self.headers.get("Content-Length") or 0), DRAINED) if self.command == "POST" else 0
        self.connection.settimeout(2)
        try:
            while left > 0:
                piece = self.rfile.read1(min(left, 1 << 16))
                if not piece:
                    return
                left -= len(piece)
        except OSError:
            return

    def do_GET(self):
        try:
            name = self.name_asked()
            if name not in self.server.files:
                raise Refused(404, "The page has no file of this name.")
            self.answer(200, *self.server.files[name])
        except Refused as refused:
            self.refuse(refused)

    def do_POST(self):
        try:
            answer = self.server.answers.of(urllib.parse.quote(self.name_asked()), self.body())
            self.answer(200, "application/json", as_json(answer))
        except Refused as refused:
            self.refuse(refused)


class Server(http.server.ThreadingHTTPServer):
    daemon_threads = True

    def __init__(self, port, program, start):
        super().__init__(("127.0.0.1", port), Handler)
        self.own, self.token = f"127.0.0.1:{self.server_address[1]}", secrets.token_urlsafe(24)
        self.files, self.answers = files_of_page(), Answers(program)
        self.files["gallery.json"] = ("application/json", as_json(gallery()))
        self.files["start.json"] = ("application/json", as_json(start))

    def address(self):
        return f"http://{self.own}/{self.token}/"

    def handle_error(self, request, client_address):
        """A connection that breaks is no matter of the server."""


def started(port, program, start):
    """A server at this port, or at a free one where it is taken."""
    try:
        return Server(port, program, start)
    except (OSError, socket.error):
        return Server(0, program, start)
