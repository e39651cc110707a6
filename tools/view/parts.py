"""The scripts and the style of the view as text, for the two pages that are made of them."""

import base64
import hashlib
import os
import re

from lens.svg import STYLE, colour_rules

HERE = os.path.dirname(os.path.abspath(__file__))
# What finds the facts may run beside the page, in a worker.
FACTS = f"{HERE}/facts.js"
VIEW = [
    f"{HERE}/{name}.js"
    for name in ("elements", "layout", "graph", "facts", "overview", "unit", "walk", "panel", "panels")
]


def read(path):
    with open(path, encoding="utf-8") as it:
        return it.read()


def script_of(*paths):
    """Modules as one script, which has no imports and no exports."""
    text = "".join(read(it) for it in paths)
    text = re.sub(r"^(?:import|export) \{[^}]*\}(?: from \"[^\"]*\")?;\n", "", text, flags=re.M)
    return re.sub(r"^export ", "", text, flags=re.M)


def style_of(*paths):
    """The style of the view, and what a page adds to it."""
    return STYLE + colour_rules() + "".join(read(it) for it in (f"{HERE}/view.css", *paths))


def hashed(text):
    return f"'sha256-{base64.b64encode(hashlib.sha256(text.encode()).digest()).decode()}'"


def policy(style, script, also="", *more):
    """What a page may do: run this script and what else it names, and reach nothing."""
    parts = ["default-src 'none'", f"script-src {hashed(script)}{also}", f"style-src {hashed(style)}", *more]
    return "; ".join([*parts, "connect-src 'none'", "base-uri 'none'", "form-action 'none'"])


def filled(template, parts):
    """A page's text with these parts. A script that would end its own element is refused."""
    for name, text in parts.items():
        if name in ("WORKER", "SCRIPT") and ("</script" in text.lower() or "<!--" in text):
            raise ValueError(f"the script {name} would end its element")
    return re.sub("@([A-Z]+)@", lambda found: parts[found[1]], template)
