"""The settings of a node, as docs/FORMATS.md has them, and the configuration that they make."""
import json
import re
from dataclasses import replace

from lens.log import Config, InputError, config_fault, digest_of, read_file, spelled_config

MEMBERS = {"weights", "threshold", "levels", "exponents", "leaders"}
OPTIONAL = {"records": 131072, "parked": 4096, "end": None}
SIZES = {
    "weights": 64,
    "threshold": 64,
    "levels": 8,
    "exponents": 8,
    "leaders": 32,
    "records": 32,
    "parked": 32,
    "end": 64,
}


def whole(text):
    """A number of JSON without sign."""
    if text.startswith("-"):
        raise ValueError("a sign")
    return int(text)


def refuse(text):
    raise ValueError(f"{text} is no whole number")


def is_number(value, bits):
    return type(value) is int and value < 1 << bits


def is_numbers(value, bits):
    return isinstance(value, list) and all(is_number(each, bits) for each in value)


def drawn_key(leaders):
    """The key by which the leaders are drawn, or None where they stand in a table."""
    if not isinstance(leaders, dict):
        return None
    key = leaders.get("drawn")
    if set(leaders) != {"drawn"} or not isinstance(key, str) or not re.fullmatch(r"[0-9a-f]{64}", key):
        raise ValueError("no leaders")
    return bytes.fromhex(key)


def config_of(said):
    """The configuration that the members make. ValueError where the form isn't that of settings."""
    if not isinstance(said, dict) or not MEMBERS <= set(said) <= MEMBERS | set(OPTIONAL):
        raise ValueError("other members")
    key = drawn_key(said["leaders"])
    for name, value in said.items():
        if name == "leaders" and key is not None:
            continue
        if not (is_numbers if name in ("weights", "exponents", "leaders") else is_number)(value, SIZES[name]):
            raise ValueError(name)
    if len(said["exponents"]) != 2:
        raise ValueError("exponents")
    more = {name: said.get(name, usual) for name, usual in OPTIONAL.items()}
    leaders = tuple(said["leaders"]) if key is None else key
    return Config(tuple(said["weights"]), said["threshold"], said["levels"], *said["exponents"], leaders, **more)


def read_settings(path):
    """The configuration of a file of settings, with its instance."""
    try:
        how = {"parse_int": whole, "parse_float": refuse, "parse_constant": refuse}
        config = config_of(json.loads(read_file(path).decode("utf-8"), **how))
    except (ValueError, RecursionError) as error:
        raise InputError(path, "config form") from error
    fault = config_fault(config)
    if fault:
        raise InputError(path, f"config {fault}")
    return replace(config, instance=digest_of(spelled_config(config)))
