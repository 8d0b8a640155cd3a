"""Any value may be handed over: it is drawn, or one of the package's own exceptions says shortly which field is wrong."""

import copy
import datetime
import enum
import json
import pickle
import random
import re
import unittest
import unittest.mock
from pathlib import Path

import yazgult
from yazgult import Annotation, Cause, Group, Level, Message, Origin, Patch, Report, Snippet, Suggestion, Title

ROUNDS = 1000
LONGEST = 300


class Strange:
    """A value that answers nothing."""

    def __getattribute__(self, name):
        raise KeyError(name)


class Raising(dict):
    """A dict that can't be read."""

    def get(self, *_):
        raise ZeroDivisionError

    items = keys = __iter__ = __getitem__ = get


class Number(enum.IntEnum):
    ONE = 1


def cyclic():
    made = []
    made.append(made)
    return made


def deep():
    made = []
    for _ in range(20_000):
        made = [made]
    return made


# What no JSON can say, each by what is told of it.
NOT_JSON = {
    "bytes": (lambda: b"x", "of type bytes"),
    "nan": (lambda: float("nan"), "found nan"),
    "infinity": (lambda: float("-inf"), "found -inf"),
    "half a pair": (lambda: "a\ud800", "half of a surrogate pair"),
    "a huge number": (lambda: 10**5000, "of 16610 bits"),
    "a tuple as a name": (lambda: {(1, 2): 2}, "of type tuple"),
    "half a pair as a name": (lambda: {"\udfff": 2}, "half of a surrogate pair"),
    "an object": (object, "of type object"),
    "a class": (lambda: dict, "of type type"),
    "a set": (set, "of type set"),
    "a range": (lambda: range(3), "of type range"),
    "a generator": (lambda: (it for it in ()), "of type generator"),
    "a date": (lambda: datetime.date(2020, 1, 1), "of type date"),
    "a report": (Report, "of type Report"),
    "a function": (lambda: cyclic, "of type function"),
}
# What JSON can say, or what can't be read at all.
OTHERS = [
    *(lambda value=value: value for value in (None, True, False, 0, -1, 1.5, 1e300, 2**64 - 1, 2**64, -(2**70), 10**4000, "", "x", [], {}, (), Number.ONE)),
    *(lambda value=value: value for value in ([[]], {"a": 1}, {"kind": "error"}, "\x1b[31m\n", "y" * 100_000, {"z" * 100_000: 1}, {"\x1b[31m": 1})),
    # `json` takes such names for texts.
    *(lambda value=value: value for value in ({1: 2}, {None: 2}, {True: 2}, {1.5: 2}, {"kind": "error", 7: 8})),
    cyclic,
    deep,
    lambda: {"a": cyclic()},
    Strange,
    Raising,
    lambda: Level("error"),
    lambda: Title("error", "t"),
    lambda: Annotation("primary", (1, 2, 3), None),
    lambda: Snippet(cyclic(), deep(), 7, [Strange()]),
    lambda: Group(Strange(), Raising()),
]


def dicts():
    """A report of each kind of part."""
    title = {"level": {"kind": "error", "name": "E"}, "text": "t", "primary": True, "id": "i", "url": "u"}
    mark = {"kind": "primary", "start": 0, "end": 1, "label": "l", "highlight_source": True}
    places = {"kind": "context", "from": {"line": 1, "column": 1}, "to": {"line": 1, "column": 2}}
    cause = {"source": "abc", "path": "p", "line_start": 1, "line_numbering": True, "fold": True, "unit": "char", "annotations": [mark, places]}
    suggestion = {"source": 0, "patches": [{"start": 0, "end": 1, "text": "x"}]}
    elements = [{"cause": cause}, {"message": {"level": {"kind": "note"}, "text": "m"}}, {"suggestion": suggestion}]
    elements += [{"origin": {"path": "o", "line": 1, "column": 2}}, {"padding": {}}]
    return [{"title": title, "elements": elements}, {"title": None, "level": {"kind": "help"}, "elements": []}]


def classes():
    """The same of classes."""
    cause = Cause("abc", [Annotation("primary", 0, 1, "l"), Annotation("context", (1, 1), (1, 2))], "p")
    elements = [cause, Snippet("abc").mark(0, 1), Message(Level("note"), "m"), Suggestion(0, [Patch(0, 1, "x")]), Origin("o", 1, 2)]
    return [Group(Title(Level("error", "E"), "t", True, "i", "u"), elements), Group(None, [], Level("help"))]


def places(value, path="groups"):
    """Each place below a value: what holds it, its name there, and its path."""
    parts = enumerate(value) if isinstance(value, list) else (value if isinstance(value, dict) else vars(value)).items()
    for name, it in list(parts):
        there = f"{path}[{name}]" if isinstance(value, list) else f"{path}.{name}"
        yield value, name, there
        if isinstance(it, (list, dict)):
            yield from places(it, there)


def put(holder, name, value):
    """Puts a value at a place."""
    if isinstance(holder, (list, dict)):
        holder[name] = value
    else:
        setattr(holder, name, value)


class Values(unittest.TestCase):
    def told(self, draw):
        """The words of the exception that comes of a call, or nothing where none does."""
        try:
            draw()
            return None
        except yazgult.Error as error:
            words = str(error)
            self.assertLessEqual(len(words), LONGEST)
            self.assertTrue(words.isprintable() and words.strip(), words)
            self.assertNotIsInstance(error, yazgult.LibraryNotFound)
            return words

    def draw(self, report):
        return self.told(lambda: yazgult.render(report, sources=["abc"]))

    def test_the_reports_are_drawn_as_they_are(self):
        self.assertIsNone(self.draw(dicts()))
        self.assertIsNone(self.draw(classes()))

    def test_what_no_json_can_say_is_told_by_its_path(self):
        for what, (make, words) in NOT_JSON.items():
            for at in range(len(list(places(dicts())))):
                groups = dicts()
                holder, name, path = list(places(groups))[at]
                put(holder, name, make())
                with self.subTest(what, path=path):
                    told = self.draw(groups)
                    self.assertTrue(told and told.startswith(f"{path}: ") and words in told, told)

    def test_what_is_no_report_is_told_by_its_path(self):
        for make in OTHERS:
            for at in range(len(list(places(dicts())))):
                groups = dicts()
                holder, name, path = list(places(groups))[at]
                put(holder, name, make())
                # What is missing may be another field of the same part, and a refusal is of a whole mark.
                part = path[: max(path.rfind("."), path.rfind("["))]
                told = self.draw(groups)
                with self.subTest(path=path):
                    self.assertTrue(told is None or told.startswith(part) or part.startswith(told.partition(": ")[0]), told)

    def test_what_is_wrong_with_a_class_is_told_by_its_path(self):
        groups = [Group(Title("error", "t"), [Snippet("abc", annotations=[Annotation("primary", 0, b"1")])])]
        path = "groups[0].elements[0].cause.annotations[0].end"
        self.assertEqual(self.draw(groups), f"{path}: expected what JSON has, found a value of type bytes")
        groups[0].elements[0].annotations[0].end = "1"
        self.assertTrue(self.draw(groups).startswith(f"{path}: expected "))

    def test_any_value_as_a_report_as_sheets_as_sources_and_as_a_setting(self):
        for make in [*(make for make, _ in NOT_JSON.values()), *OTHERS]:
            self.draw(make())
            self.draw([make()])
            for name in ("sheet", "sources", "term_width", "wrap", "unheard_of"):
                self.told(lambda: yazgult.render(dicts(), **{"sources": ["abc"], name: make()}))
            self.told(lambda: yazgult.render_sheets(dicts(), make()))
            self.told(lambda: yazgult.render_sheets(dicts(), [make()]))
            self.told(lambda: yazgult.render_html(make(), sources=make()))
            self.told(lambda: yazgult.render(Report(make(), make())))

    def test_any_value_as_what_other_functions_take(self):
        for make in [*(make for make, _ in NOT_JSON.values()), *OTHERS]:
            if make is Strange:
                # Not even its class can be asked for.
                continue
            self.told(lambda: yazgult.render(dicts(), spans=make(), sources=["abc"]))
            self.told(lambda: yazgult.answer_json(make()))
            self.told(lambda: yazgult.from_syntax_error(make()))
            self.told(lambda: yazgult.from_syntax_error(SyntaxError("m", ("f", 1, 1, "t")), make()))
            for at in range(6):
                values = ["abc", 1, 1, 1, 2]
                values[at:at + 1] = [make()]
                self.told(lambda: yazgult.span(*values[:5], unit=make() if at == 5 else "byte"))

    def test_any_value_as_what_is_added_to_and_as_what_is_printed_into(self):
        for make in [*(make for make, _ in NOT_JSON.values()), *OTHERS]:
            if make is Strange:
                continue
            self.told(lambda: Report(make()).group("error", "t"))
            self.told(lambda: Group(None, make()).message("note", "m").origin("o").snippet("s"))
            self.told(lambda: Snippet("abc", None, make(), make()).mark(0, 1))
            self.told(lambda: Snippet("abc", None, make(), make()).patch(0, 1, ""))
            self.told(lambda: yazgult.print_report(dicts(), make(), sources=["abc"], term_width=80))
        self.assertEqual(self.told(lambda: Report(7).group("error", "t")), "groups: expected a list, found a value of type int")
        grown = Group(None, (Message("note", "m"),)).message("note", "n")
        self.assertEqual([it.text for it in grown.elements], ["m", "n"])

    def test_exceptions_come_over_from_another_process(self):
        wrong = [Group(Title("error", "t"), [Snippet("abc").mark(0, 9)])]
        for groups in (wrong, 7):
            with self.assertRaises(yazgult.Error) as raised:
                yazgult.render(groups)
            came = pickle.loads(pickle.dumps(raised.exception))
            self.assertEqual((type(came), str(came), vars(came)), (type(raised.exception), str(raised.exception), vars(raised.exception)))
            self.assertEqual(str(copy.copy(raised.exception)), str(raised.exception))

    def test_unknown_fields_and_settings_are_told(self):
        groups = dicts()
        groups[0]["title"]["colour"] = "red"
        self.assertTrue(self.draw(groups).startswith("groups[0].title.colour: unknown, expected only level "))
        told = self.told(lambda: yazgult.render(dicts(), width=3))
        self.assertTrue(told.startswith("settings.width: unknown, expected only no_graphics "), told)

    def test_want_of_memory_is_told(self):
        source = Path(yazgult.__file__).parents[3] / "crates" / "yazgult_c" / "src" / "lib.rt"
        (line,) = re.findall(r'NO_MEMORY_LINE: &str = ("\{.*\}");', source.read_text(encoding="utf-8"))
        for answers in ({"return_value": json.loads(line).encode()}, {"side_effect": MemoryError}):
            with unittest.mock.patch("yazgult.drawing.call", **answers), self.assertRaises(yazgult.OutOfMemory):
                yazgult.render(dicts())

    def test_random_values_at_random_places(self):
        chance = random.Random(84)
        makes = [*(make for make, _ in NOT_JSON.values()), *OTHERS]
        drawn = 0
        for at in range(ROUNDS):
            groups = copy.deepcopy(dicts() if at % 2 else classes())
            for holder, name, _ in chance.sample(list(places_of_all(groups)), chance.choice((1, 1, 2, 3))):
                put(holder, name, chance.choice(makes)())
            drawn += self.draw(groups) is None
        # Some values are right where they are put.
        self.assertTrue(ROUNDS / 100 < drawn < ROUNDS / 2, drawn)


def places_of_all(value, path="groups"):
    """Each place below a value, in classes too."""
    if type(value) in (list, dict) or type(value).__module__ == "yazgult.report":
        for holder, name, there in places(value, path):
            yield holder, name, there
            it = holder[name] if isinstance(holder, (list, dict)) else getattr(holder, name)
            if type(it).__module__ == "yazgult.report":
                yield from places_of_all(it, there)


if __name__ == "__main__":
    unittest.main()
