"""`lens.py instance FILE`: the instance of a file of settings, of a log, or of a certificate, and what it is made of."""
from lens.certificate import is_certificate, read_certificate
from lens.log import MAGIC, read_file, read_head
from lens.settings import read_settings
from lens.show import config_lines


def config_in(path):
    """The configuration that a file has, whatever it is."""
    if is_certificate(path):
        return read_certificate(path).config
    return read_head(path) if read_file(path, len(MAGIC)) == MAGIC else read_settings(path)


def run(arguments):
    """Shows the instance, and answers 0."""
    print("\n".join(config_lines(config_in(arguments.file))))
    return 0
