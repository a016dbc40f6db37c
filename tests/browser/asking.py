"""Checks of the server of tools/play by requests, without a browser: each is a name and what is wrong of it."""
import json
import os
import socket

from driver import Failed
from served import TOP, text_of

FILES = ["", "style.css", "drawing.css", "page.js", "language.js", "layout.js", "drawing.js", "gallery.json", "start.json"]
BOXES = text_of("examples", "boxes.chart")


def expect(got, wanted, what):
    if got != wanted:
        raise Failed(f"{what}: {got!r} and not {wanted!r}")


def refused(answer, status, what):
    """A request is refused with this status and a sentence."""
    expect(answer[0], status, what)
    if not json.loads(answer[1])["sentence"].endswith("."):
        raise Failed(f"{what}: no sentence in {answer[1]!r}")


def still_answers(served):
    expect(served.question("check", {"text": BOXES})[1]["words"], "ok nodes=40 threads=6 budget=26\n", "a good request afterwards")


def own_files(served):
    """The page's files are served where the token stands in the address."""
    for name in FILES:
        status, body = served.ask("GET", f"/{served.token}/{name}")
        expect((status, bool(body)), (200, True), name or "the page")
    scripts = [name for name in os.listdir(os.path.join(TOP, "playground")) if name.endswith(".js")]
    page = served.ask("GET", f"/{served.token}/")[1].decode()
    for name in scripts:
        if name != "run.js" and f'src="{name}"' not in page:
            raise Failed(f"{name} is not in the page")


def without_token(served):
    """Without the token, with another one, and with a part of it nothing is served."""
    for token in ["", "/x", "/" + served.token[:-1], "/" + served.token.upper(), "/" + served.token + "x", "/%2e", "/.."]:
        for name in FILES:
            refused(served.ask("GET", f"{token}/{name}"), 403, f"{token}/{name}")
        refused(served.ask("POST", f"{token}/check", json.dumps({"text": BOXES}).encode()), 403, f"POST {token}/check")
    refused(served.ask("GET", "/" + served.token), 403, "the token without a slash behind it")
    refused(served.ask("GET", served.token), 403, "the token without a slash before it")


def other_origin(served):
    for origin in ["http://evil.example", "null", "https://" + served.host, "http://127.0.0.1", f"http://localhost:{served.port}", ""]:
        refused(served.ask("GET", f"/{served.token}/", Origin=origin), 403, f"GET from {origin!r}")
        refused(served.ask("POST", f"/{served.token}/check", json.dumps({"text": BOXES}).encode(), Origin=origin), 403, f"POST from {origin!r}")
    refused(served.ask("POST", f"/{served.token}/check", json.dumps({"text": BOXES}).encode(), Origin=None), 403, "POST without an origin")
    refused(served.ask("GET", f"/{served.token}/page.js", Sec_Fetch_Site="cross-site"), 403, "a script asked for by another page")
    refused(served.ask("GET", f"/{served.token}/page.js", Sec_Fetch_Site="same-site"), 403, "a script asked for by another port")


def other_host(served):
    for host in ["evil.example", f"evil.example:{served.port}", f"localhost:{served.port}", "127.0.0.1", "", None]:
        status = served.ask("GET", f"/{served.token}/", Host=host)[0]
        if status not in (400, 403):
            raise Failed(f"for the host {host!r}: {status}")


def out_of_folder(served):
    """No file but the page's own is served."""
    for name in ["../tools/play", "%2e%2e/tools/play", "..%2ftools%2fplay", "/etc/passwd", "//etc/passwd", "....//README.md", "server.py",
                 "single_page.py", "run.html", "index.html", "style.css?x", "style.css/", "STYLE.CSS", ".", "..", "examples/boxes.chart", "style.css%00",
                 "\\..\\tools\\play", "check"]:
        refused(served.ask("GET", f"/{served.token}/{name}"), 404, name)
    refused(served.ask("POST", f"/{served.token}/index.html", json.dumps({"text": ""}).encode()), 404, "POST index.html")


def large_body(served):
    """A body of 10 MB is refused by a sentence, also where it is only announced."""
    for size in (262145 + 12, 1048577, 10_000_000):
        text = "x" * (size - 12)
        refused(served.ask("POST", f"/{served.token}/check", json.dumps({"text": text}).encode()), 413, f"{size} bytes")
    for length in ("99999999999999", "10000000"):
        answer = served.raw(f"POST /{served.token}/check HTTP/1.1\r\nHost: {served.host}\r\nOrigin: http://{served.host}\r\n"
                            f"Content-Length: {length}\r\n\r\n{{}}".encode())
        expect(answer.split(b" ")[1:2], [b"413"], f"{length} bytes that do not come")
    still_answers(served)


def broken_requests(served):
    head = f"POST /{served.token}/check HTTP/1.1\r\nHost: {served.host}\r\nOrigin: http://{served.host}\r\n"
    for status, data in [("400", "nonsense\r\n\r\n"), ("400", "GET\r\n\r\n"), ("400", "GET / HTTP/9.9.9\r\n\r\n"), ("411", head + "\r\n"),
                         ("411", head + "Content-Length: -1\r\n\r\n"), ("411", head + "Content-Length: 1e3\r\n\r\n"),
                         ("411", head + "Transfer-Encoding: chunked\r\n\r\n0\r\n\r\n"), ("400", head + "Content-Length: 50\r\n\r\n{}"),
                         ("501", head.replace("POST", "PUT") + "\r\n"), ("501", head.replace("POST", "OPTIONS") + "\r\n"),
                         ("414", f"GET /{'a' * 70000} HTTP/1.1\r\n\r\n"), ("431", head + "x: y\r\n" * 200 + "\r\n")]:
        answer = served.raw(data.encode())
        expect(answer.split(b" ")[1:2], [status.encode()], f"{data[:60]!r}")
    for name in ("", "\0" * 100, "\x16\x03\x01\x02\x00\x01\x00\x01\xfc\x03\x03"):
        served.raw(name.encode("latin-1"))
    for body in [b"", b"{", b"[]", b"1", b"\xff\xfe", b'{"text":1}', b'{"text":null}', b"[" * 100000, b'{"ticks":[]}']:
        refused(served.ask("POST", f"/{served.token}/check", body), 400, f"the body {body[:20]!r}")
    for asked in [{}, {"ticks": 1}, {"ticks": [1]}, {"ticks": ["{}\n{}"]}, {"ticks": [], "from": -1}, {"ticks": [], "from": "x"}]:
        status, answer = served.question("run", {"text": BOXES, **asked})
        expect((status, "sentence" in answer), (400, True), f"run with {asked}")
    still_answers(served)


def hostile_texts(served):
    """Whatever the text is, the answer is the program's."""
    for text, fault in [("", "E02 at 0"), ("\0", "E01 at 0"), ("\ud800", "E01 at 0"), ("chart \u00e9", "E01 at 6"), ("chart", "E02 at 5"),
                        ("x" * 20_000, "E07 at 0"), ("(" * 5_000, "E02 at 0"), ("chart P {" + " region R { initial state s {" * 200, None),
                        ("extended " + "/* " * 50_000, "E01 at 9"), ("/* " * 50_000, "E02 at 0"), ("extended chart P {" + "/* */" * 20_000, None)]:
        status, answer = served.question("check", {"text": text})
        expect((status, answer["accepted"]), (200, False), f"{text[:20]!r}")
        if fault:
            expect(answer["fault"], fault, f"{text[:20]!r}")
        for name in ("views", "image"):
            expect(served.question(name, {"text": text})[0], 200, f"{name} of {text[:20]!r}")
        expect("refused" in served.question("run", {"text": text, "ticks": ["{}"]})[1], True, f"a run of {text[:20]!r}")


def hostile_ticks(served):
    """What is no tick ends the run before it, by the program's own words."""
    for line, fault in [("", "E62 line 2"), ("[]", "E62 line 2"), ('{"left":1}', "E51 line 2"), ('{"nobody":true}', "E51 line 2"), ("\ud800", "E62 line 2"),
                        ("[" * 70000, "E62 line 2"), ('{"parts":1}', "E51 line 2")]:
        _, answer = served.question("run", {"text": BOXES, "ticks": ['{"left":true}', line, "{}"]})
        expect((len(answer["lines"]), answer["fault"], len(answer["states"])), (1, fault, 1), f"the line {line[:20]!r}")


def this_machine_alone(served):
    """Nothing listens at this machine's other addresses."""
    for found in {info[4][0] for info in socket.getaddrinfo(socket.gethostname(), None, socket.AF_INET)}:
        if found.startswith("127."):
            continue
        try:
            socket.create_connection((found, served.port), timeout=3).close()
        except OSError:
            continue
        raise Failed(f"it listens at {found}")


CHECKS = [own_files, without_token, other_origin, other_host, out_of_folder, large_body, broken_requests, hostile_texts, hostile_ticks,
          this_machine_alone]
