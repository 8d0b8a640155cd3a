"""How well the colours of a stylesheet can be told from the page behind them."""

import re

# A page without a colour of its own: the lightest that a browser has, and the lightest of the dark ones.
PAGES = {"light": "ffffff", "dark": "1e1e1e"}


def luminance(colour):
    """How bright a colour is, from 0 to 1, as WCAG 2 computes it."""
    parts = (int(colour[at : at + 2], 16) / 255 for at in (0, 2, 4))
    return sum(share * (it / 12.92 if it <= 0.04045 else ((it + 0.055) / 1.055) ** 2.4) for share, it in zip((0.2126, 0.7152, 0.0722), parts))


def coloured(rules):
    """The colour that each rule names, by what it is a rule for."""
    return {selector.strip(): colour for selector, colour in re.findall(r"([^\n{]*)\{[^}]*?#([0-9a-f]{6})\b", rules)}


def contrasts(styles):
    """Each colour of a stylesheet on its page, with its contrast, the least first. On a dark page a light rule holds unless a dark one does."""
    dark = "\n".join(re.findall(r"@media \(prefers-color-scheme: dark\) \{\n(.*?)\n\}", styles, re.S))
    light = re.sub(r"@media \(prefers-color-scheme: dark\) \{\n.*?\n\}", "", styles, flags=re.S)
    pages = {"light": coloured(light), "dark": {**coloured(light), **coloured(dark)}}
    found = []
    for page, colours in pages.items():
        for selector, colour in colours.items():
            low, high = sorted((luminance(colour), luminance(PAGES[page])))
            found.append(((high + 0.05) / (low + 0.05), f"{selector} #{colour} on a {page} page"))
    return sorted(found)
