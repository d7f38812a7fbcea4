"""How a tool begins and ends: its use where it is given no words, and a sentence in place of a traceback."""

import os
import signal
import sys


def fault_of(fault):
    """What is said of an exception, in a line."""
    if isinstance(fault, OSError) and fault.strerror:
        return f"{fault.filename}: {fault.strerror}" if fault.filename else fault.strerror
    import traceback  # here, since a run without a fault has no use for it

    at = traceback.extract_tb(fault.__traceback__)[-1]
    said = " ".join(str(fault).split())
    return f"{type(fault).__name__}{f': {said}' if said else ''} ({os.path.basename(at.filename)}, line {at.lineno})"


def guarded(name, main):
    """Ends with the status of `main`. What goes wrong in it is said in one line; a closed pipe and an interrupt end it quietly."""
    try:
        status = main()
        sys.stdout.flush()
    except BrokenPipeError:
        os.dup2(os.open(os.devnull, os.O_WRONLY), 1)
        status = 128 + signal.SIGPIPE
    except KeyboardInterrupt:
        status = 128 + signal.SIGINT
    except Exception as fault:  # whatever it is: the user gets a line that names it
        print(f"{name}: {fault_of(fault)}", file=sys.stderr)
        status = 1
    sys.exit(status)


def tool(doc, main):
    """Runs a tool with its words: without any it says its use and ends with 2, and with `--help` with 0."""
    name, words = os.path.basename(sys.argv[0]), sys.argv[1:]
    if not words or words[0] in ("--help", "-h"):
        print(doc, end="", file=sys.stdout if words else sys.stderr)
        sys.exit(0 if words else 2)
    guarded(name, lambda: main(words))
