"""Draws the cases of a file so often: bench.py draw|json FILE TIMES. What that costs can be counted.

With `draw` each is drawn by `yazgult.render_sheets`; with `json` by `json.dumps` of its groups and `yazgult.answer_json`, which asks of that
line what `draw` asks. Both draw under no sheet of the case's own, but as plain text.
"""

import json
import sys

import yazgult


def main(how, name, times):
    with open(name, encoding="utf-8") as file:
        reports = [json.loads(line)["groups"] for line in file]
    for _ in range(int(times)):
        for groups in reports:
            if how == "draw":
                yazgult.render(groups, spans="bytes")
            else:
                yazgult.answer_json(json.dumps({"id": "", "groups": groups}))


main(*sys.argv[1:])
