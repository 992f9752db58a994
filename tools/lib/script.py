"""How the scripts end: what goes wrong is one line on standard error, and the status is 1."""
import sys


class Fault(Exception):
    """Why something cannot be done, in one line."""


def run(name, main, *faults, written="standard output"):
    """Calls main with the words. A fault is told by its own text, another one by the name of its file, or of what is written."""
    try:
        main(sys.argv[1:])
    except (Fault, *faults) as fault:
        sys.exit(f"{name}: {fault}")
    except RecursionError:
        sys.exit(f"{name}: a function has its brackets nested too deep")
    except OSError as fault:
        sys.exit(f"{name}: {fault.filename or written}: {fault.strerror}")
