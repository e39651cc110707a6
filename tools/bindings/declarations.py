#!/usr/bin/env python3
"""Compares what the declarations for C and for Rust say of crates/hw_c with its own text.

  tools/bindings/declarations.py

Statuses by name and number, rules by name and number, structs by their fields in order, and calls by their parameters
in order stand in the crate, in bindings/c/highway.h and in bindings/rust/src. The crate has the numbers of rules from
hw_text. Where a text says another thing than the crate, this names it and ends with 1. The texts are read as texts, so
it proves nothing of them."""

import re
import sys
from pathlib import Path

TOP = Path(__file__).resolve().parents[2]
# What the structs of the header are called in the crate.
STRUCTS = {
    "hw_answer": "Answer",
    "hw_audited": "Audited",
    "hw_core": "Handle",
    "hw_decided": "Decided",
    "hw_delivered": "Delivered",
    "hw_due_now": "Due",
    "hw_judged": "Judged",
    "hw_need": "Missing",
    "hw_observed": "Observed",
    "hw_placed": "Placed",
    "hw_planned": "Planned",
    "hw_sent": "Sent",
    "hw_settings": "Settings",
    "hw_signatures": "Signed",
    "hw_signer": "Signer",
    "hw_summary_of": "Summary",
    "hw_unit_facts": "UnitFacts",
}
# The status that the header answers by itself: no call of the library has it, nor another one its number.
OF_THE_HEADER = {"BUSY": 8}
TYPES = {"uint8_t": "u8", "uint32_t": "u32", "uint64_t": "u64", "size_t": "usize", "bool": "bool", **STRUCTS}


def numbers_of(text):
    """The constants of a text in Rattle or in Rust, by name."""
    rows = re.findall(r"^pub(?:\(crate\))? const ([A-Z_]+): u32 = (\w+);", text, re.M)
    return {name: int(number, 0) for name, number in rows if name != "VERSION"}


def numbers_of_header(text):
    """The statuses of the header, by name without its beginning."""
    return {name: int(number, 0) for name, number in re.findall(r"^\s*HW_([A-Z_]+) = (\w+),?", text, re.M)}


def rules_of_crate(text):
    """The numbers of the rules in the crate, by name."""
    return {name: int(number) for name, number in re.findall(r"Rule::(\w+) => (\d+),", text)}


def rules_of_wrapper(text):
    """The numbers of the rules in the wrapper, by name."""
    return {name: int(number) for name, number in re.findall(r"^\s*(\w+) = (\d+), \"", text, re.M)}


def rule_texts_of_wrapper(text):
    """What the wrapper says of each rule, by number."""
    return {int(number): said for number, said in re.findall(r"^\s*\w+ = (\d+), \"(.*)\";", text, re.M)}


def rule_texts_of_script(text):
    """What the module for JavaScript says of each rule, by number."""
    (listed,) = re.findall(r"^export const RULES = \[(.*?)^\];", text, re.M | re.S)
    return dict(enumerate(re.findall(r'"(.*?)"', listed), 1))


def fields(text):
    """The fields of a struct in Rattle or in Rust: pairs of name and type."""
    text = re.sub(r"//[^\n]*", "", text)
    return re.findall(r"(?:pub )?(\w+):\s*(\[u8; 32\]|\w+)", text)


def structs_of_crate(text):
    """The structs that the crate shares with its callers. A handle is one word to them."""
    rows = re.findall(r"#\[repr\(C\)\]\n(?:#\[[^\n]*\n)*pub struct (\w+) \{(.*?)\n\}", text, re.S)
    return {name: fields(body) for name, body in rows if name != "Handle"}


def structs_of_wrapper(text):
    """The structs that the wrapper shares with the crate."""
    return {name: fields(body) for name, body in re.findall(r"^record!\((\w+) \{(.*?)\}\);", text, re.S | re.M)}


def without_comments(header):
    return re.sub(r"/\*.*?\*/", "", header, flags=re.S)


def fields_of_header(body):
    found = []
    for row in filter(None, map(str.strip, body.split(";"))):
        kind, names = row.split(" ", 1)
        for name in names.split(","):
            word, is_array = re.fullmatch(r"\s*(\w+)(\[32\])?", name).groups()
            found.append((word, f"[{TYPES[kind]}; 32]" if is_array else TYPES[kind]))
    return found


def structs_of_header(text):
    rows = re.findall(r"typedef struct \{(.*?)\} (\w+);", without_comments(text), re.S)
    return {STRUCTS[name]: fields_of_header(body) for body, name in rows if name != "hw_core"}


def split(parameters):
    """The parameters, of which one has no comma of its own."""
    return [" ".join(it.split()) for it in parameters.split(",") if it.strip()]


def of_rattle(parameter):
    """What a parameter of an export passes: nothing, a number, a pointer, or a pointer and a length."""
    kind = parameter.split(": ", 1)[1]
    if kind == "Global":
        return []
    is_const, kind = not kind.startswith("&mut "), re.sub(r"^&(mut )?", "&", kind)
    begin = "const " if is_const else ""
    is_list = re.fullmatch(r"&\[(\w+)\]", kind)
    if is_list:
        return [f"{begin}{is_list[1]}*", "usize"]
    return [f"{begin}{kind[1:]}*" if kind.startswith("&") else kind]


def calls_of_crate(text):
    rows = re.findall(r'^pub extern "C" fn (\w+)\((.*?)\) -> u32\n', text, re.S | re.M)
    return {name: [it for row in split(body) for it in of_rattle(row)] for name, body in rows}


def of_rust(parameter):
    kind = parameter.split(": ", 1)[1].replace("RawHandle", "Handle")
    return re.sub(r"^\*(const|mut) (.*)$", lambda it: f"{'const ' * (it[1] == 'const')}{it[2]}*", kind)


def calls_of_wrapper(text):
    rows = re.findall(r"^\s*pub fn (hw_\w+)\((.*?)\) -> u32;", text, re.S | re.M)
    return {name: [of_rust(it) for it in split(body)] for name, body in rows}


def of_c(parameter):
    is_const, kind, rest = re.fullmatch(r"(const )?(\w+) (\*?\w+(?:\[32\])?)", parameter).groups()
    kind = f"[{TYPES[kind]}; 32]*" if rest.endswith("[32]") else TYPES[kind] + "*" * rest.startswith("*")
    return (is_const or "") + kind


def calls_of_header(text):
    rows = re.findall(r"^uint32_t (hw_\w+)\((.*?)\);", without_comments(text), re.S | re.M)
    return {name: [of_c(it) for it in split(body) if it != "void"] for name, body in rows}


def ungated(crate, header):
    """The calls with a handle that the header doesn't keep to one at a time."""
    gated = {name for name, _ in re.findall(r"^#define (hw_\w+) \1_(alone|both)$", header, re.M)}
    held = {name for name, kinds in calls_of_crate(crate).items() if "Handle*" in kinds}
    return [f"highway.h: {name} is made while another call uses the handle" for name in sorted(held - gated)]


def differences(what, crate, other, where):
    """What the other text says otherwise than the crate, a line each."""
    names = sorted(it for it in {*crate, *other} if crate.get(it) != other.get(it))
    return [f"{where}: {what} {it}: {other.get(it)}, and in the crate {crate.get(it)}" for it in names]


def compared(crate, rules, header, wrapper, wrapper_rules, script):
    """Where the texts differ, as lines, and how much there is of what. Each text is given whole."""
    statuses, calls, structs = numbers_of(crate), calls_of_crate(crate), structs_of_crate(crate)
    found = differences("status", {**statuses, **OF_THE_HEADER}, numbers_of_header(header), "highway.h")
    taken = sorted(name for name, number in statuses.items() if number in OF_THE_HEADER.values())
    found += [f"the crate: status {name} has a number of the header's own" for name in taken]
    found += differences("status", statuses, numbers_of(wrapper), "bindings/rust")
    found += differences("rule", rules_of_crate(rules), rules_of_wrapper(wrapper_rules), "bindings/rust")
    found += differences("rule", rule_texts_of_wrapper(wrapper_rules), rule_texts_of_script(script), "bindings/js")
    found += differences("struct", structs, structs_of_header(header), "highway.h")
    found += differences("struct", structs, structs_of_wrapper(wrapper), "bindings/rust")
    found += differences("call", calls, calls_of_header(header), "highway.h")
    found += differences("call", calls, calls_of_wrapper(wrapper), "bindings/rust")
    found += ungated(crate, header)
    counts = {"statuses": statuses, "rules": rules_of_crate(rules), "structs": structs, "calls": calls}
    return found, {what: len(it) for what, it in counts.items()}


def version_faults(top=TOP):
    """Where a text has another version than the file VERSION, as lines."""
    version = (top / "VERSION").read_text().strip()
    number = "0x" + "".join(f"{int(part):02x}" for part in version.split("."))
    places = {
        "crates/hw_c/src/lib.rt": rf"^pub const VERSION: u32 = {number};",
        "bindings/c/highway.h": rf"^#define HW_VERSION {number}$",
        "bindings/c/highway.pc.in": rf"^Version: {re.escape(version)}$",
        "bindings/rust/Cargo.toml": rf'^version = "{re.escape(version)}"$',
        "bindings/ed25519/Cargo.toml": rf'^version = "{re.escape(version)}"$',
        "CHANGELOG.md": rf"^## {re.escape(version)}$",
    }
    return [
        f"{place} hasn't the version {version}"
        for place, form in places.items()
        if not re.search(form, (top / place).read_text(), re.M)
    ]


def texts(top=TOP):
    """The texts that are compared: the crate, the numbers of rules, the header, the wrapper's declarations and rules, and
    the module for JavaScript."""
    folder, wrapper = top / "crates/hw_c/src", top / "bindings/rust/src"
    crate = "\n".join(it.read_text() for it in sorted(folder.glob("*.rt")))
    declared = (wrapper / "sys.rs").read_text() + (wrapper / "status.rs").read_text()
    header = (top / "bindings/c/highway.h").read_text()
    rules = (top / "crates/hw_text/src/rules.rt").read_text()
    script = (top / "bindings/js/highway.js").read_text()
    return crate, rules, header, declared, (wrapper / "rule.rs").read_text(), script


def main():
    found, counts = compared(*texts())
    found += [f"no {what} were found" for what, count in counts.items() if not count]
    found += version_faults()
    for row in found:
        print(f"bindings: not the same in all texts: {row}")
    if not found:
        print(f"bindings: the same in all texts: {', '.join(f'{count} {what}' for what, count in counts.items())}")
    return 1 if found else 0


if __name__ == "__main__":
    sys.exit(main())
