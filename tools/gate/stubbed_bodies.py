"""A crate in which all bodies but some are left out, so that a check of those costs little.

A check of a function looks at those that it calls too, though its proof cites only what they state. Here their bodies
are `unreachable!()`, and the one goal of that is left open as a hole. The check goes past holes (`--allow-holes`), so
the bodies that are left are checked against all contracts as they stand. A refusal of one of these for itself is what a
check of the whole crate would say: it depends on no other body. That nothing is refused here proves nothing.

A body stays where leaving it out could change more than itself: one that a trait or an `impl` of a trait may pass on,
of a `const fn`, in a cycle of calls, or whose type is hidden (`impl` in the head), and one whose goals a file of
proofs/ outside its own folder names."""

import os
import re

from gate.rattle_pages import key_of
from gate.rattle_sources import OF_A_FUNCTION, files_of, functions_of, text_of

TYPE = re.compile(r"^(?:pub(?:\([^)]*\))? )?(?:struct|enum) (\w+)", re.M)
ANSWERS = """use Rattle.{crate}.proofs.{path}.Goals as goal

pub unreachable-requires : goal.unreachable-requires
unreachable-requires c = ?
"""


def stubbed(crate, texts, spared):
    """Returns the texts of a check in which all bodies but those of the spared keys are left out, where they can be,
    and the folders of proofs/ that it has no use for."""
    sources = {it: texts.get(it) or text_of(f"{crate.folder}/{it}") for it in files_of(crate.folder, ("src",))}
    modules, named = modules_of_types(sources), names_of_others(crate)
    made, gone = dict(texts), []
    for file, text in sources.items():
        rows = text.split("\n")
        for it in functions_of(text):
            path = proof_path(file, it, modules)
            if key_of(file, it) in spared or not path or must_stay(rows, it) or path in named:
                continue
            rows[it.body : it.last] = ["    unreachable!()"] + [""] * (it.last - it.body - 1)
            gone.append(f"proofs/{path}")
            made[f"proofs/{path}/Answers.antt"] = ANSWERS.format(crate=crate.name, path=path.replace("/", "."))
        if rows != text.split("\n"):
            made[file] = "\n".join(rows)
    return (made, gone) if gone else (texts, gone)


def module_of(file):
    """Returns the path of the module that a file of src/ is."""
    parts = file[len("src/") : -len(".rt")].split("/")
    return parts[:-1] if parts[-1] in ("lib", "main", "mod") else parts


def modules_of_types(sources):
    """Returns the path of the module of each type, by its name; a name that two types have is left out."""
    found, twice = {}, set()
    for file, text in sources.items():
        for name in TYPE.findall(text):
            twice |= {name} & set(found)
            found[name] = module_of(file)
    return {name: path for name, path in found.items() if name not in twice}


def proof_path(file, function, modules):
    """Returns where below proofs/ a function's own files are, or None where that isn't sure."""
    owner, _, name = function.name.rpartition("::")
    if not owner:
        return "/".join([*module_of(file), name])
    return "/".join([*modules[owner], owner, name]) if owner in modules else None


def must_stay(rows, function):
    """Returns whether a body could tell more than what the function states."""
    head = " ".join(rows[function.first : function.body])
    is_open = re.search(r"\bconst fn\b|\bfn main\b|\bimpl\b", head)
    return bool(function.cycle or is_open) or function.body == function.last


def names_of_others(crate):
    """Returns the paths below proofs/ of the functions whose goals files outside their own folders name."""
    found = set()
    for file in files_of(crate.folder, ("proofs",)):
        own = os.path.dirname(file)[len("proofs/") :] if file.endswith(OF_A_FUNCTION) else ""
        text = text_of(f"{crate.folder}/{file}")
        for path in re.findall(rf"\bRattle\.{crate.name}\.proofs\.([\w.]+)\.Goals\b", text):
            found |= {path.replace(".", "/")} - {own}
    return found
