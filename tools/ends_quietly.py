"""Whoever imports this ends quietly when the reader of its standard output has gone, as in `tools/choose .. | head -1`: no
traceback, and status 141, as a shell tells of a program that SIGPIPE ended.

SIGPIPE itself stays ignored, as Python has it: it would also end a program that writes to one of its own children, and leave
the program no time to tidy up.
"""
import atexit
import io
import os
import sys

GONE = 141


class _Output(io.FileIO):
    gone = False

    def write(self, data):
        try:
            return super().write(data)
        except BrokenPipeError:
            self.gone = True
            # What still comes goes nowhere.
            os.dup2(os.open(os.devnull, os.O_WRONLY), self.fileno())
            sys.exit(GONE)


def _end():
    # Python flushes by itself as it ends, and forgets a status that is raised then: so it is made here. Of another failure, such
    # as a full disk, Python speaks itself.
    try:
        sys.stdout.flush()
    except (SystemExit, OSError):
        pass
    if _output.gone:
        os._exit(GONE)


# None: standard output is closed.
if sys.stdout is not None:
    _output = _Output(sys.stdout.fileno(), "w", closefd=False)
    sys.stdout = io.TextIOWrapper(io.BufferedWriter(_output), encoding=sys.stdout.encoding, errors=sys.stdout.errors,
                                  line_buffering=sys.stdout.line_buffering or sys.stdout.write_through)
    atexit.register(_end)
