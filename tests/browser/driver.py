"""A headless Chromium, driven by the WebDriver protocol through chromedriver."""
import base64
import json
import os
import shutil
import socket
import subprocess
import time
import urllib.error
import urllib.request

ELEMENT = "element-6066-11e4-a52e-4f735466cecf"
KEYS = {"Tab": "\ue004", "Enter": "\ue007", "Shift": "\ue008", "Control": "\ue009", "Alt": "\ue00a", "End": "\ue010",
        "Home": "\ue011", "Left": "\ue012", "Right": "\ue014", "Down": "\ue015", "Space": " "}


class Failed(Exception):
    """What was expected of the page is not so."""


def found(*names):
    return next((path for path in map(shutil.which, names) if path), None)


def missing():
    """What is not installed of a browser and its driver, as a sentence, or ""."""
    parts = [name for name, path in [("chromium", found("chromium", "chromium-browser", "google-chrome")),
                                     ("chromedriver (package chromium-driver)", found("chromedriver"))] if not path]
    return f"no {' and no '.join(parts)}: apt-get install -y chromium chromium-driver" if parts else ""


def free_port():
    with socket.socket() as one:
        one.bind(("127.0.0.1", 0))
        return one.getsockname()[1]


class Browser:
    """One window. Used in a `with`. One that is traced can tell once which tasks its pages had."""

    def __init__(self, width=1280, height=900, traced=False):
        self.size, self.process, self.base, self.session, self.traced = (width, height), None, "", "", traced

    def __enter__(self):
        port = free_port()
        self.process = subprocess.Popen([found("chromedriver"), f"--port={port}"], stdout=subprocess.DEVNULL, stderr=subprocess.DEVNULL)
        self.base = f"http://127.0.0.1:{port}"
        self.wait(lambda: self.ready(), 120)
        words = ["--headless=new", "--disable-gpu", "--no-first-run", "--disable-extensions", "--disable-dev-shm-usage",
                 "--hide-scrollbars", "--force-color-profile=srgb", f"--window-size={self.size[0]},{self.size[1]}"]
        if os.geteuid() == 0:
            words.append("--no-sandbox")
        options = {"args": words, "binary": found("chromium", "chromium-browser", "google-chrome")}
        logs = {"browser": "ALL"}
        if self.traced:
            logs["performance"] = "ALL"
            options["perfLoggingPrefs"] = {"traceCategories": "devtools.timeline,blink.user_timing",
                                           "enableNetwork": False, "enablePage": False}
        wanted = {"browserName": "chrome", "goog:chromeOptions": options, "goog:loggingPrefs": logs}
        self.session = self.call("POST", "/session", {"capabilities": {"alwaysMatch": wanted}})["sessionId"]
        return self

    def __exit__(self, *_):
        try:
            if self.session:
                self.call("DELETE", f"/session/{self.session}")
        except (OSError, Failed):
            pass
        self.process.terminate()
        self.process.wait(120)

    def ready(self):
        try:
            return self.call("GET", "/status")["ready"]
        except OSError:
            return False

    def call(self, method, path, body=None):
        data = json.dumps(body if body is not None else {}).encode() if method == "POST" else None
        asked = urllib.request.Request(self.base + path, data=data, method=method, headers={"Content-Type": "application/json"})
        try:
            with urllib.request.urlopen(asked, timeout=600) as answer:
                return json.loads(answer.read())["value"]
        except urllib.error.HTTPError as error:
            raise Failed(json.loads(error.read())["value"]["message"].split("\n")[0]) from error

    def ask(self, path, body=None):
        return self.call("POST" if body is not None else "GET", f"/session/{self.session}/{path}", body)

    # ---- the page

    def open(self, address):
        self.ask("url", {"url": address})

    def js(self, script, *words):
        return self.ask("execute/sync", {"script": script, "args": list(words)})

    def wait(self, question, seconds=180, what="what was waited for did not come"):
        """The first answer that is not empty."""
        until = time.monotonic() + seconds
        while True:
            answer = question()
            if answer:
                return answer
            if time.monotonic() > until:
                raise Failed(what)
            time.sleep(0.05)

    def wait_js(self, script, *words, seconds=180):
        return self.wait(lambda: self.js(script, *words), seconds, f"never true: {script} {words or ''}")

    def element(self, selector):
        return self.ask("element", {"using": "css selector", "value": selector})[ELEMENT]

    def click(self, selector):
        self.ask(f"element/{self.element(selector)}/click", {})

    def type(self, selector, text):
        self.ask(f"element/{self.element(selector)}/value", {"text": text})

    def keys(self, *names):
        """Presses keys together, by their names, and lets them go."""
        codes = [KEYS.get(name, name) for name in names]
        acts = [{"type": "keyDown", "value": code} for code in codes] + [{"type": "keyUp", "value": code} for code in reversed(codes)]
        self.ask("actions", {"actions": [{"type": "key", "id": "keys", "actions": acts}]})

    def point(self, selector):
        """Moves the pointer onto an element."""
        origin = {ELEMENT: self.element(selector)}
        acts = [{"type": "pointerMove", "duration": 0, "x": 0, "y": 0, "origin": origin}]
        self.ask("actions", {"actions": [{"type": "pointer", "id": "pointer", "actions": acts}]})

    def resize(self, width, height):
        self.ask("window/rect", {"width": width, "height": height})

    def command(self, name, **words):
        """A command of the DevTools protocol."""
        return self.ask("goog/cdp/execute", {"cmd": name, "params": words})

    def picture(self, **words):
        return base64.b64decode(self.command("Page.captureScreenshot", format="png", **words)["data"])

    def tasks_after(self, mark):
        """What took the page's own thread longest since it set a mark: name and milliseconds of processor time. Asked once."""
        messages = [json.loads(entry["message"])["message"] for entry in self.ask("se/log", {"type": "performance"})]
        events = [message["params"] for message in messages if message["method"] == "Tracing.dataCollected"]
        set_at = next(event for event in events if event.get("name") == mark)
        place = set_at["pid"], set_at["tid"]
        own = [event for event in events if (event.get("pid"), event.get("tid")) == place and event["ts"] >= set_at["ts"]]
        return sorted(((event["tdur"] / 1000, event["name"]) for event in own if event.get("tdur")), reverse=True)

    def complaints(self):
        """What the console has said since it was last asked."""
        return [entry["message"] for entry in self.ask("se/log", {"type": "browser"}) if entry["level"] in ("SEVERE", "WARNING")]
