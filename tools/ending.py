"""How a tool ends: with a status, and without a traceback."""
import contextlib
import os
import subprocess
import sys


class Fault(Exception):
    """What ends a tool, with a line for each of its arguments."""


def ended(main, after_fault=2):
    """Ends the tool with the status that `main` returns for the words that are given. If it returns none, the tool's
    description is printed. A fault, or what the system refuses, such as a missing file, is lines on standard error."""
    words, lines = sys.argv[1:], []
    try:
        if sys.stdout is None:
            raise Fault('output failed: standard output is closed')
        status = main(words)
        if status is None:
            print(sys.modules['__main__'].__doc__.strip())
        sys.stdout.flush()
        sys.exit(2 * (words != ['--help']) if status is None else status)
    except Fault as fault:
        lines = fault.args
    except RecursionError:
        lines = ['the pattern is nested too deeply for this Python']
    except KeyboardInterrupt:
        lines = ['interrupted']
    except BrokenPipeError:
        lines = []
    except (OSError, UnicodeError, subprocess.SubprocessError) as error:
        # without the number that Python puts in front
        said = getattr(error, 'strerror', None) or str(error)
        lines = [f'{error.filename}: {said}' if getattr(error, 'filename', None) is not None else said]
    for line in lines:
        shown = ''.join(it if it.isprintable() else ascii(it)[1:-1] for it in line)
        print(f'{os.path.basename(sys.argv[0])}: {shown}', file=sys.stderr)
    with contextlib.suppress(AttributeError, OSError):  # what could not be written is not tried again at the end
        os.dup2(os.open(os.devnull, os.O_WRONLY), sys.stdout.fileno())
    sys.exit(after_fault)
