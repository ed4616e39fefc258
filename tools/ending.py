"""How the tools that a user calls end: with a sentence and an exit status, and never with a traceback."""
import os
import sys

CLOSED, INTERRUPTED = 141, 130


def of(name, main):
    """Runs a tool's main function, and returns its exit status: 141 if the reader of its output went away, 130 after an
    interrupt from the keyboard, and 1, with a message, if a file or the output can't be read or written."""
    try:
        return finished(main)
    except BrokenPipeError:
        status = CLOSED
    except KeyboardInterrupt:
        status = INTERRUPTED
    except OSError as error:
        where = error.filename if error.filename is not None else "standard output"
        print(f"{name}: {where}: {error.strerror}", file=sys.stderr)
        status = 1
    # Python would write the rest of the output at its end, and fail again.
    os.dup2(os.open(os.devnull, os.O_WRONLY), sys.stdout.fileno())
    return status


def of_plain(told, main, *options):
    """Does the same for a tool that has only these options: with --help it prints the head of its file, and it refuses
    others."""
    name = os.path.basename(sys.argv[0])
    if {"-h", "--help"} & set(sys.argv):
        return of(name, lambda: print(told.strip()))
    if unknown := [it for it in sys.argv[1:] if it.startswith("-") and it not in options]:
        print(f"{name}: there is no {unknown[0]}; tools/{name} --help tells what there is", file=sys.stderr)
        return 2
    return of(name, main)


def finished(main):
    """Runs it, and writes all that it left to be written."""
    try:
        status = main()
    except SystemExit as end:
        status = end.code
    if sys.stdout:
        sys.stdout.flush()
    return status
