"""Standard error and standard output of the scripts, where these are closed or full."""
import os
import sys


def discard(stream):
    """What a stream failed to write isn't tried again when the script ends."""
    os.dup2(os.open(os.devnull, os.O_WRONLY), stream.fileno())


def tell(message):
    """Says a line on standard error. Where that is closed or full, nobody can be told."""
    if sys.stderr is None:
        return
    try:
        print(message, file=sys.stderr, flush=True)
    except OSError:
        discard(sys.stderr)


def need_output():
    """Where standard output is closed, Python would write nothing, and not fail."""
    if sys.stdout is None:
        raise OSError("standard output is closed")
