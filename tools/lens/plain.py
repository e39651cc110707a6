"""Gives each shape of a picture plain attributes, for a viewer that knows no style sheet, or no variables in one.

A browser takes the style sheet of the picture over them, and with it the reader's light or dark background. What is
written here is what that sheet says in light."""

import re

PAPER, INK, SOFT, BAND, RULE, CITE, RED = "#fff", "#1b1f24", "#57606a", "#f3f5f8", "#c4ccd6", "#8993a0", "#c4161c"
FONT = 'font-family="system-ui,Segoe UI,DejaVu Sans,sans-serif" font-size="12"'
TAG = re.compile(r"<(/?)(g|text|rect|path|circle)\b([^>]*?)(/?)>")
CLASS = re.compile(r' class="([^"]*)"')

# By class, in the order in which one is taken over another; `text` and `rect` are those in a group of units (u) or of
# units that aren't settled (apart).
TEXTS = {
    "u": {"font-size": "11", "text-anchor": "middle"},
    "apart": {"font-size": "11"},
    "soft": {"fill": SOFT},
    "title": {"font-size": "15", "font-weight": "600"},
    "big": {"font-size": "14", "font-weight": "600"},
    "mono": {"font-size": "11.5", "font-family": "DejaVu Sans Mono,monospace"},
    "bold": {"font-weight": "700"},
    "red": {"fill": RED, "font-weight": "600"},
    "m": {"fill": RED, "font-weight": "600"},
    "tag": {"font-size": "10"},
}
LINE = {"fill": "none", "stroke": CITE}
SHAPES = {
    "u": {"stroke": INK},
    "g": {"stroke": INK},
    "apart": {"fill": PAPER, "stroke": SOFT, "stroke-width": "1.2", "stroke-dasharray": "3 2"},
    "paper": {"fill": PAPER},
    "band": {"fill": BAND},
    "none": {"fill": PAPER},
    "rule": {"stroke": RULE},
    "gap": {"stroke": RULE, "stroke-dasharray": "2 4"},
    "cite": LINE,
    "stub": {**LINE, "stroke-dasharray": "2 2"},
    "dot": {"fill": CITE},
    "step": {**LINE, "stroke-width": "2.5"},
    "fork": {"fill": "none", "stroke": RED, "stroke-width": "2.5", "stroke-dasharray": "6 3"},
    "block": {"stroke-width": "1.5"},
    "frame": {"fill": "none", "stroke-width": "2"},
    "ring": {"fill": "none", "stroke": RED, "stroke-width": "2.5", "stroke-dasharray": "4 2"},
    "box": {"fill": "none"},
    "dropped": {"stroke-dasharray": "1 2"},
    "refused": {"stroke": RED},
}


def attributes_of(element, names, colours):
    """What an element with these classes, its group's among them, looks like."""
    table = TEXTS if element == "text" else SHAPES
    found = {"fill": INK} if element == "text" else {}
    for name, said in table.items():
        if name in names and not (name in ("u", "apart") and element not in ("text", "rect")):
            found.update(said)
    for place, (fill, ink) in enumerate(colours):
        if f"c{place}" in names and element != "text":
            found["fill"] = fill
        if f"i{place}" in names and element == "text":
            found["fill"] = ink
    return found


def with_plain(drawn, colours):
    """What is drawn, with plain attributes in each of its elements."""
    groups = []

    def told(tag):
        closes, element, inside, ends = tag.groups()
        if closes:
            if element == "g":
                groups.pop()
            return tag[0]
        own = CLASS.search(inside)
        names = own[1].split() if own else []
        if element == "g":
            groups.extend([] if ends else [[it for it in names if it in ("u", "apart")]])
            return tag[0]
        names += [it for group in groups for it in group]
        said = "".join(f' {name}="{value}"' for name, value in attributes_of(element, names, colours).items())
        return f"<{element}{inside}{said}{ends}>"

    return TAG.sub(told, drawn)
