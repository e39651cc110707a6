"""To look at a log of `highway`: entries, units, evidence, signatures, conflicts, pictures, a node that runs.

    python3 tools/lens.py COMMAND ...           python3 tools/lens.py COMMAND --help

It proves nothing. It reads the documented formats itself, so it is a second pair of eyes on them. Each judgement (what
is final, who is faulty, who is a culprit) comes from the proved program, which it calls: `--program PATH`, else the
environment variable HIGHWAY, else crates/highway/out/highway in this repository. What it works out itself, so that
there is something to show, is compared with what the program's `replay` says.

Status 0: it showed what was asked. 1: `verify` or `why` found a verdict that isn't what the keys say, or the own reading
differs from the program. 2: bad words, a bad file, or no program; one line on standard error says which, with its place.
3: `watch --halt` saw that finality has halted.
"""
import argparse
import importlib
import io
import os
import sys

from lens.log import InputError
from lens.program import ProgramError

ALL = (None, None)


def span(text):
    """Two numbers `A..B`, each of which may be left out, as a pair with None for an open end."""
    low, dots, high = text.partition("..")
    if not dots or not all(part == "" or part.isdecimal() for part in (low, high)):
        raise argparse.ArgumentTypeError(f"{text!r} isn't of the form A..B")
    return (int(low) if low else None, int(high) if high else None)


def positive(text):
    """A number above 0, perhaps with a fraction."""
    try:
        number = float(text)
    except ValueError:
        number = 0.0
    if not 0 < number < float("inf"):
        raise argparse.ArgumentTypeError(f"{text!r} isn't a number above 0")
    return number


def whole(text):
    """A whole number from 0 on."""
    if not text.isdecimal():
        raise argparse.ArgumentTypeError(f"{text!r} isn't a whole number")
    return int(text)


def command(commands, name, what):
    """A command's parser, with the option that all have."""
    parser = commands.add_parser(name, help=what, description=what)
    parser.add_argument("--program", metavar="PATH", help="the built program (else HIGHWAY, else the one built here)")
    parser.add_argument("--no-progress", action="store_true", help="no progress line on standard error")
    return parser


def signatures_option(parser):
    what = "a file of Ed25519 signatures beside a log, given once or more; KEYS are public keys then, 64 digits a line"
    parser.add_argument("--signatures", metavar="FILE", action="append", help=what)


def keys_options(parser):
    parser.add_argument("--keys", metavar="KEYS", help="the validators' keys, with which each signature is checked")
    signatures_option(parser)


def force_option(parser):
    parser.add_argument("--force", action="store_true", help="write over a file that is there")


def add_questions(commands):
    parser = command(commands, "entries", "each entry of a log or vertex of a certificate, and what became of it")
    parser.add_argument("log", metavar="LOG")
    parser.add_argument("--entries", type=span, metavar="A..B", default=ALL, help="only the entries of these places")
    parser = command(commands, "unit", "one unit in full")
    parser.add_argument("log", metavar="LOG")
    parser.add_argument("hash", metavar="HASH", help="the digest, or a prefix that one unit alone has")
    parser = command(commands, "instance", "the instance of a file of settings, a log, or a certificate")
    parser.add_argument("file", metavar="FILE")


def add_accusations(commands):
    parser = command(commands, "evidence", "the pair that shows each faulty validator, or each culprit of two logs")
    parser.add_argument("log", metavar="LOG")
    parser.add_argument("right", metavar="RIGHT", nargs="?", help="another log, that is in conflict with the first")
    parser.add_argument("--out", metavar="NEW", help="write the pairs as a log that a third party checks")
    keys_options(parser)
    force_option(parser)
    parser = command(commands, "verify", "checks each signature; status 1 where a verdict byte isn't what the keys say")
    parser.add_argument("log", metavar="LOG")
    parser.add_argument("keys", metavar="KEYS")
    signatures_option(parser)
    parser = command(
        commands, "why", "the conflict of two logs as a story; status 1 where the keys say that a verdict is wrong"
    )
    parser.add_argument("left", metavar="LEFT")
    parser.add_argument("right", metavar="RIGHT")
    keys_options(parser)


def picture_options(parser):
    parser.add_argument("--rounds", type=span, metavar="A..B", default=ALL, help="only these rounds, from the first on")
    force_option(parser)


def add_pictures(commands):
    parser = command(commands, "draw", "a log as a picture")
    parser.add_argument("log", metavar="LOG")
    parser.add_argument("out", metavar="OUT.svg")
    picture_options(parser)
    parser = command(commands, "page", "a log, or the conflict of two, as a page for a browser")
    parser.add_argument("logs", metavar="LOG", nargs="+", help="one log, or two in conflict")
    parser.add_argument("out", metavar="OUT.html")
    picture_options(parser)


def add_watch(commands):
    parser = command(commands, "watch", "follows the log of a node that runs")
    parser.add_argument("log", metavar="LOG")
    parser.add_argument("--json", action="store_true", help="a line a refresh, for a monitor")
    parser.add_argument("--every", type=positive, metavar="SECONDS", default=1.0, help="between refreshes (1)")
    parser.add_argument("--count", type=whole, metavar="N", default=0, help="end after so many refreshes (0: never)")
    parser.add_argument(
        "--halt", type=whole, metavar="SECONDS", help="end with status 3 once finality has halted so long"
    )
    parser.add_argument(
        "--metrics", metavar="FILE", help="write a text for Prometheus at each refresh; - prints it instead"
    )
    parser.add_argument("--now", type=whole, metavar="MS", help="the present in milliseconds, in place of the clock")


def make_parser():
    form = argparse.RawDescriptionHelpFormatter
    parser = argparse.ArgumentParser(prog="lens.py", description=__doc__, formatter_class=form)
    commands = parser.add_subparsers(dest="command", metavar="COMMAND", required=True)
    add_questions(commands)
    add_accusations(commands)
    add_pictures(commands)
    add_watch(commands)
    return parser


def answer(arguments):
    """The status of a command. Bad input, no program, and a file that can't be written are one line each, and 2."""
    try:
        return importlib.import_module(f"lens.{arguments.command}").run(arguments)
    except BrokenPipeError:
        raise
    except (InputError, ProgramError, OSError) as error:
        sys.stdout.flush()
        print(f"lens: {error}", file=sys.stderr)
        return 2


def main(words=None):
    """Runs a command, and answers its status."""
    words = sys.argv[1:] if words is None else words
    if isinstance(sys.stdout, io.TextIOWrapper):
        sys.stdout.reconfigure(errors="backslashreplace")
    try:
        status = answer(make_parser().parse_args(words))
        sys.stdout.flush()
        return status
    except KeyboardInterrupt:
        return 0 if words[0] == "watch" else 130
    except BrokenPipeError:
        os.dup2(os.open(os.devnull, os.O_WRONLY), sys.stdout.fileno())
        return 0
