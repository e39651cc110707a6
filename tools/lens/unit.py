"""`lens.py unit LOG HASH`: one unit in full. What is final is the program's word."""
from lens.show import Look, unit_lines


def run(arguments):
    """Shows the unit, and answers 0; without the program it shows all but what is final."""
    look = Look(arguments.log, arguments)
    digest = look.find(arguments.hash)
    finals = look.program().explain(look.file_before_limit()) if look.has_program else ()
    print("\n".join(unit_lines(look, digest, finals=finals)))
    look.refuse_fault()
    return 0
