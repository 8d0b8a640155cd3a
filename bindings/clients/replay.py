"""Draws reports by a `replay` that is kept open. Run it by itself to draw one: python3 bindings/clients/replay.py crates/replay/out/replay"""

import json
import subprocess
import sys
import threading
from concurrent.futures import Future


class Refused(Exception):
    """A report that is refused: `name` says why, `str` where, and `numbers` has the numbers that it names."""

    def __init__(self, answer):
        super().__init__(answer["text"])
        self.name = answer["refused"]
        self.numbers = {name: it for name, it in answer.items() if name not in ("id", "text", "refused")}


class Ended(Exception):
    """`replay` has ended, or was closed, and answers no more."""


class Replay:
    """A `replay` that is kept open. Any thread may draw by it; `with` closes it."""

    def __init__(self, program="replay"):
        self.process = subprocess.Popen([program, "--keep-going"], stdin=subprocess.PIPE, stdout=subprocess.PIPE, encoding="utf-8")
        self.lock, self.count, self.waiting, self.has_ended = threading.Lock(), 0, {}, False
        self.reader = threading.Thread(target=self._read, daemon=True)
        self.reader.start()

    def draw(self, groups, **more):
        """Returns the texts of a report, one for each sheet. `more` are `settings` and `sheets`."""
        future = Future()
        with self.lock:
            number = self.count + 1
            line = json.dumps({**more, "groups": groups, "id": str(number)}) + "\n"
            if self.has_ended:
                raise Ended("replay has ended")
            self.count, self.waiting[number] = number, future
            try:
                self.process.stdin.write(line)
                self.process.stdin.flush()
            except OSError:
                raise Ended("replay has ended: it says why") from None
        answer = future.result()
        if "error" in answer:
            raise ValueError(answer["error"])
        if "refused" in answer:
            raise Refused(answer)
        return answer["ok"]

    def _read(self):
        """Gives each answer to who asked: it has the number of the report as its id, or of the line that was no report."""
        try:
            for line in self.process.stdout:
                answer = json.loads(line)
                self.waiting.pop(int(answer.get("id") or answer["line"])).set_result(answer)
        finally:
            self.process.kill()  # where it hasn't ended, it isn't replay
            with self.lock:
                self.has_ended = True
            for future in self.waiting.values():
                future.set_exception(Ended("replay has ended: it says why"))

    def close(self):
        """Ends `replay`, once it has drawn what it was asked for."""
        with self.lock:
            self.has_ended = True
            try:
                self.process.stdin.close()
            except OSError:
                pass
        self.process.wait()
        self.reader.join()
        self.process.stdout.close()

    def __enter__(self):
        return self

    def __exit__(self, *_):
        self.close()


if __name__ == "__main__":
    mark = {"kind": "primary", "start": 4, "end": 5, "label": "never read"}
    cause = {"source": "let é = 1;\n", "unit": "char", "annotations": [mark]}
    title = {"level": {"kind": "error"}, "text": "unused variable", "primary": True}
    with Replay(*sys.argv[1:]) as replay:
        print(*replay.draw([{"title": title, "elements": [{"cause": cause}]}]), sep="\n")
