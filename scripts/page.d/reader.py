"""A page as who listens hears it, and which reports each choice shows, from its HTML alone."""

from html.parser import HTMLParser

# Elements that are told of, by the name that a browser has for each.
ROLES = {"a": "link", "h1": "heading", "h2": "heading", "article": "article", "nav": "navigation", "main": "main", "fieldset": "group"}
# Elements without an end.
VOID = {"meta", "input"}


class Reader(HTMLParser):
    """What is heard of a page, line by line, and the classes of its articles and the ids of its choices."""

    def __init__(self, html):
        super().__init__(convert_charrefs=True)
        self.rows, self.open, self.articles, self.choices = [], [], [], {}
        self.feed(html)
        self.close()

    def row(self, kind, name=""):
        self.rows.append([kind, name])
        return self.rows[-1]

    def handle_starttag(self, tag, attributes):
        attributes = dict(attributes)
        # What is named after this: a row whose name is still read.
        named = None
        if tag in ROLES:
            named = self.row(ROLES[tag], attributes.get("aria-label", ""))
            if "aria-label" in attributes or tag in ("article", "nav", "main", "fieldset"):
                named = None
        if tag == "article":
            self.articles.append(attributes["class"].split())
        if tag == "legend":
            named = next(it for it in reversed(self.rows) if it[0] == "group")
        if tag == "input":
            self.choices.setdefault(attributes["name"], []).append(attributes["id"])
            label = next(it for it in reversed(self.open) if it["tag"] == "label")
            label["named"] = self.row("radio")
        if tag not in VOID:
            self.open.append({"tag": tag, "named": named, "hidden": attributes.get("aria-hidden") == "true" or tag in ("head", "style", "svg")})

    def handle_endtag(self, tag):
        if self.open.pop()["tag"] != tag:
            raise ValueError(f"{tag} is ended where another element is open")

    def handle_data(self, data):
        if any(it["hidden"] for it in self.open):
            return
        for it in self.open:
            if it["named"]:
                it["named"][1] += data
        if any(it["tag"] in ("a", "h1", "h2", "legend", "label") for it in self.open):
            return
        words = " ".join(data.split())
        if words and self.rows and self.rows[-1][0] == "text":
            self.rows[-1][1] += " " + words
        elif words:
            self.row("text", words)

    def told(self):
        """What is heard, as lines."""
        return [" ".join(filter(None, (kind, " ".join(name.split())))) for kind, name in self.rows]

    def shown(self, level, file):
        """The numbers of the articles that are shown where these are chosen."""
        levels = {
            "all": lambda it: True,
            "errors": lambda it: "error" in it,
            "warnings": lambda it: "warning" in it,
            "others": lambda it: "error" not in it and "warning" not in it,
        }
        return [at for at, it in enumerate(self.articles, 1) if levels[level](it) and (file == "every" or file in it)]
