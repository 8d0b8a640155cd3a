"""Chromium without a window, driven over a pipe by its debugging protocol."""

import base64
import json
import os
import select
import shutil
import subprocess
import tempfile

# How long an answer may take, in seconds.
LONGEST = 60


def found():
    """Where Chromium is, if it is anywhere."""
    return shutil.which("chromium") or shutil.which("chromium-browser")


class Browser:
    """A browser with one page."""

    def __init__(self, address):
        taken, self.asks = os.pipe()
        self.answers, given = os.pipe()
        self.folder = tempfile.TemporaryDirectory()
        flags = ["--headless=new", "--no-sandbox", "--disable-gpu", "--hide-scrollbars", "--remote-debugging-pipe", f"--user-data-dir={self.folder.name}"]
        started = ["bash", "-c", f'exec "$0" "$@" 3<&{taken} 4>&{given}', found(), *flags]
        self.process = subprocess.Popen(started, pass_fds=(taken, given), stdout=subprocess.DEVNULL, stderr=subprocess.DEVNULL)
        os.close(taken)
        os.close(given)
        self.number, self.read, self.session = 0, b"", None
        target = self.ask("Target.createTarget", url="about:blank")["targetId"]
        self.session = self.ask("Target.attachToTarget", targetId=target, flatten=True)["sessionId"]
        self.ask("Page.enable")
        self.ask("Accessibility.enable")
        self.ask("Page.navigate", url=address)
        self.until(lambda it: it.get("method") == "Page.loadEventFired")

    def until(self, is_wanted):
        """The next message that is wanted."""
        while True:
            while b"\0" not in self.read:
                if not select.select([self.answers], [], [], LONGEST)[0]:
                    raise TimeoutError("Chromium doesn't answer")
                more = os.read(self.answers, 1 << 20)
                if not more:
                    raise EOFError("Chromium has ended")
                self.read += more
            message, _, self.read = self.read.partition(b"\0")
            message = json.loads(message)
            if is_wanted(message):
                return message

    def ask(self, method, **parameters):
        """Calls a method, and returns what it answers."""
        self.number += 1
        call = {"id": self.number, "method": method, "params": parameters}
        if self.session:
            call["sessionId"] = self.session
        os.write(self.asks, json.dumps(call).encode() + b"\0")
        answer = self.until(lambda it: it.get("id") == self.number)
        if "error" in answer:
            raise RuntimeError(f"{method}: {answer['error']}")
        return answer["result"]

    def value(self, expression):
        """The value of an expression of JavaScript in the page."""
        return self.ask("Runtime.evaluate", expression=expression, returnByValue=True)["result"].get("value")

    def click(self, name):
        """Clicks in the middle of what has this id, as a hand does."""
        place = f"document.getElementById({json.dumps(name)})"
        self.value(f"{place}.scrollIntoView({{block: 'center'}})")
        x, y = self.value(f"(r => [r.x + r.width / 2, r.y + r.height / 2])({place}.getBoundingClientRect())")
        for kind in ("mousePressed", "mouseReleased"):
            self.ask("Input.dispatchMouseEvent", type=kind, x=x, y=y, button="left", clickCount=1)

    def shown(self):
        """Which articles are seen, by their numbers from 1."""
        return self.value("[...document.querySelectorAll('article')].flatMap((it, at) => it.getClientRects().length ? [at + 1] : [])")

    def picture(self, width, scheme):
        """A picture of the top of the page, so many pixels wide, light or dark."""
        self.ask("Emulation.setDeviceMetricsOverride", width=width, height=1000, deviceScaleFactor=1, mobile=False)
        self.ask("Emulation.setEmulatedMedia", features=[{"name": "prefers-color-scheme", "value": scheme}])
        return base64.b64decode(self.ask("Page.captureScreenshot", format="png")["data"])

    def tree(self):
        """The accessibility tree: each node by its id."""
        return {it["nodeId"]: it for it in self.ask("Accessibility.getFullAXTree")["nodes"]}

    def close(self):
        self.process.terminate()
        self.process.wait()
        self.folder.cleanup()


# What is told of by its role and name, and what isn't told but by the name of something else.
ROLES = {"link", "heading", "radio", "article", "navigation", "main", "group"}
NAMING = {"Legend", "LabelText"}


def told(tree):
    """An accessibility tree as lines: what each thing is and is called, in the order in which it is read."""
    rows = []

    def add(kind, name):
        name = " ".join(name.split())
        if kind == "text" and rows and rows[-1][0] == "text":
            rows[-1][1] += " " + name
        elif kind != "text" or name:
            rows.append([kind, name])

    def walk(node, is_named):
        role = node.get("role", {}).get("value", "")
        if not node.get("ignored"):
            if role in ROLES:
                add(role, node.get("name", {}).get("value", ""))
            elif role == "StaticText" and not is_named:
                add("text", node["name"]["value"])
        is_named = is_named or role in NAMING or role in ("link", "heading")
        for child in node.get("childIds", []):
            if child in tree:
                walk(tree[child], is_named)

    walk(next(it for it in tree.values() if "parentId" not in it), False)
    return [" ".join(filter(None, row)) for row in rows]
