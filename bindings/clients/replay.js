// Draws reports by a `replay` that is kept open. Run it by itself to draw one: node bindings/clients/replay.js crates/replay/out/replay
"use strict";

const { spawn } = require("node:child_process");

class Replay {
  constructor(program = "replay") {
    this.count = 0;
    this.waiting = new Map();
    this.why = null;
    this.process = spawn(program, ["--keep-going"], { stdio: ["pipe", "pipe", "inherit"] });
    const ended = () => this.fail(new Error("replay has ended: it says why"));
    this.process.on("error", (error) => this.fail(error)).on("close", ended);
    this.process.stdin.on("error", ended);
    let rest = "";
    this.process.stdout.setEncoding("utf8").on("data", (text) => {
      const lines = (rest + text).split("\n");
      rest = lines.pop();
      try {
        lines.forEach((line) => this.answer(line));
      } catch (error) {
        this.fail(error); // the program isn't replay
      }
    });
  }

  // Gives the texts of a report, one for each sheet. `more` has `settings` and `sheets`. Where `replay` isn't there, or has ended, each
  // promise is rejected.
  draw(groups, more = {}) {
    if (this.why) return Promise.reject(this.why);
    const line = JSON.stringify({ ...more, groups, id: String(this.count + 1) }) + "\n";
    return new Promise((resolve, reject) => {
      this.waiting.set(++this.count, { resolve, reject });
      this.process.stdin.write(line);
    });
  }

  // Ends `replay`, once it has drawn what it was asked for.
  end() {
    this.why ??= new Error("replay was ended");
    this.process.stdin.end();
  }

  // Gives an answer to who asked: it has the number of the report as its id, or of the line that was no report.
  answer(line) {
    const { id, ok, refused, text, error, line: number, ...numbers } = JSON.parse(line);
    const { resolve, reject } = this.waiting.get(Number(id ?? number));
    this.waiting.delete(Number(id ?? number));
    if (ok) resolve(ok);
    else reject(Object.assign(new Error(text ?? error), refused && { name: refused, ...numbers }));
  }

  // Rejects what waits, and what is asked from now on.
  fail(why) {
    this.why ??= why;
    this.waiting.forEach(({ reject }) => reject(why));
    this.waiting.clear();
  }
}

module.exports = { Replay };

if (require.main === module) {
  const mark = { kind: "primary", start: 4, end: 5, label: "never read" };
  const cause = { source: "let é = 1;\n", unit: "utf16", annotations: [mark] };
  const title = { level: { kind: "error" }, text: "unused variable", primary: true };
  const replay = new Replay(...process.argv.slice(2));
  const drawn = replay.draw([{ title, elements: [{ cause }] }]);
  drawn.then((texts) => console.log(texts.join("\n"))).finally(() => replay.end());
}
