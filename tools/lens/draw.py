"""`draw LOG OUT.svg`: a log as a picture. It proves nothing: each judgement in it is the proved program's."""
import os
import pathlib
import tempfile

from lens.layout import Rounds, block_labels, lay_out
from lens.log import InputError
from lens.program import need_program
from lens.seen import DIFFER, look
from lens.svg import picture

UNITS_MOST = 20000


def write_new(path, said, force):
    """Writes a file whole or not at all; one that is there only with force."""
    path = pathlib.Path(path)
    if path.exists() and not force:
        raise InputError(path, "exists: --force writes over it")
    try:
        handle, name = tempfile.mkstemp(prefix=f".{path.name}.", dir=path.parent)
        with os.fdopen(handle, "wb") as file:
            file.write(said.encode() if isinstance(said, str) else said)
        os.chmod(name, 0o644)
        os.replace(name, path)
    except OSError as error:
        raise InputError(path, (error.strerror or str(error)).lower()) from error


def check_new(path, force):
    """Says before the work begins that a file is there already."""
    if pathlib.Path(path).exists() and not force:
        raise InputError(path, "exists: --force writes over it")


def check_size(seen, scene):
    """Refuses a picture that no browser would like to open."""
    if len(scene.spots) > UNITS_MOST:
        said = f"{len(scene.spots)} units are more than a picture's {UNITS_MOST}: choose rounds with --rounds A..B"
        raise InputError(seen.name, said)


def run(arguments):
    """Draws the log, and says where the picture is."""
    check_new(arguments.out, arguments.force)
    seen = look(arguments.log, need_program(arguments.program), arguments)
    labels = block_labels(seen.reading)
    scene = lay_out(seen, labels, Rounds(seen), arguments.rounds)
    check_size(seen, scene)
    write_new(arguments.out, picture(seen, scene, labels), arguments.force)
    for note in seen.notes:
        print(note)
    first, last = scene.window
    print(f"drawn {len(scene.spots)} units of rounds {first} to {last}, and {len(scene.apart)} apart: {arguments.out}")
    return 1 if any(note.startswith(DIFFER) for note in seen.notes) else 0
