"""The parts of tools/sheet: building, printing, explaining, describing, comparing, editing and viewing station sheets."""
import contextlib


class Problem(Exception):
    """What is wrong, in one line for the user. The status is 1 for wrong contents, 2 for a wrong command or file."""

    def __init__(self, line, status=1):
        super().__init__(line)
        self.status = status


@contextlib.contextmanager
def named(name):
    """Puts a file's name before what is wrong with its contents."""
    try:
        yield
    except Problem as problem:
        raise Problem(f"{name}: {problem}", problem.status) from None


def one_line(text):
    """A text without line ends and other characters that do not print: these as in \\n or \\x1b."""
    return "".join(c if c.isprintable() else c.encode("unicode_escape").decode("ascii") for c in text)
