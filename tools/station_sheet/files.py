"""The files of one run: what is read, and what is written. An input is never written over, but for a sheet that is edited. '-' is standard input or
output.

A file is written beside its place, and takes it when everything was written: after an error, each file is as it was.
"""
import contextlib
import io
import os
import stat
import sys

from . import Problem, one_line

MOST_TEXT = 1 << 24
MOST_LINKS = 40


class Files:
    """Remembers each file that was read, by its identity, so that links to it are known too; and the outputs that are not written yet."""

    def __init__(self):
        self.inputs, self.outputs = [], []

    def read(self, path, most):
        """The bytes of a file; of a longer one, one byte past the most."""
        if path == "-" and any(name == "-" for name, _ in self.inputs):
            raise Problem("'-' is named twice, and standard input can be read once only", 2)
        try:
            with open(0 if path == "-" else path, "rb", closefd=path != "-") as file:
                self.inputs.append((str(path), os.fstat(file.fileno())))
                self.refuse_input("-")
                return file.read(most + 1)
        except OSError as error:
            raise Problem(f"{input_name(path)}: {error.strerror}", 2) from None
        except ValueError:
            raise Problem(f"{path}: no name of a file", 2) from None

    def read_text(self, path):
        """The text of a file in UTF-8, with line feeds alone as line ends."""
        data, name = self.read(path, MOST_TEXT), input_name(path)
        if len(data) > MOST_TEXT:
            raise Problem(f"{name}: longer than {MOST_TEXT} bytes, which is no description, no list of edits and no font")
        if data.startswith(b"\xef\xbb\xbf"):
            raise Problem(f"{name}: begins with a byte order mark (EF BB BF): save it as UTF-8 without one")
        try:
            return data.decode("utf-8").replace("\r\n", "\n")
        except UnicodeDecodeError as error:
            line = data.count(b"\n", 0, error.start) + 1
            raise Problem(f"{name}: line {line}: not a text in UTF-8: byte {data[error.start]:02X} at {error.start}") from None

    def write(self, outputs):
        """Writes each path's bytes."""
        self.prepare(outputs)
        self.finish()

    def say(self, lines):
        """Writes lines to standard output."""
        self.write([("-", said(lines))])

    def prepare(self, outputs, edited=None):
        """Writes each file beside its place. Nothing is written if one of the paths is an input other than the one that is edited, or two are the same."""
        for number, (path, _) in enumerate(outputs):
            self.refuse_input(path, edited)
            for other, _ in outputs[:number]:
                if same_output(path, other):
                    raise Problem(f"{path}: named for two outputs", 2)
        for path, data in outputs:
            with blamed(path):
                self.outputs.append(Output(path, data))
                self.outputs[-1].prepare()

    def finish(self):
        """Writes the streams, and files that have none beside them; then each file that was prepared takes its place."""
        for output in sorted(self.outputs, key=lambda output: (output.beside is not None, output.place is not None)):
            with blamed(output.path):
                output.finish()
        self.outputs = []

    def discard(self):
        """Removes what was prepared and took no place."""
        for output in self.outputs:
            output.discard()

    def refuse_input(self, path, edited=None):
        found = status_of(path)
        if found is None or not stat.S_ISREG(found.st_mode):
            return
        for name, read in self.inputs:
            if name != edited and os.path.samestat(found, read):
                raise Problem(f"{output_name(path)}: this file is an input ({input_name(name)}), and is not written over", 2)


class Output:
    """The bytes for one path: a file, or a stream or a device, which has nothing beside it and is written at the end."""

    def __init__(self, path, data):
        self.path, self.data, self.beside = path, data, None
        self.place = None if is_standard_output(path) else place_of(path)

    def prepare(self):
        """Writes a new file beside the place, with the owner and the permissions of one that stands there and may be written."""
        if self.place is None:
            return
        old = status_of(self.place)
        if old is not None:
            os.close(os.open(self.place, os.O_WRONLY))
        self.beside = os.path.join(os.path.dirname(self.place), f".sheet-{os.urandom(8).hex()}")
        try:
            file = open(self.beside, "xb")
        except PermissionError:
            if old is None:
                raise
            self.beside = None  # the folder takes no new file: the old one is written as it stands
            return
        with file:
            if old is not None:
                take_over(file.fileno(), old)
            file.write(self.data)

    def finish(self):
        if self.beside is not None:
            os.replace(self.beside, self.place)
            self.beside = None
        elif is_standard_output(self.path):
            write_standard_output(self.data)
        else:
            with open(self.path, "wb") as file:
                file.write(self.data)

    def discard(self):
        if self.beside is not None:
            with contextlib.suppress(OSError):
                os.remove(self.beside)


@contextlib.contextmanager
def blamed(path):
    """Turns an error of the system into a line that names the path."""
    try:
        yield
    except OSError as error:
        raise Problem(f"{output_name(path)}: {error.strerror}", 2) from None


def input_name(path):
    return "standard input" if path == "-" else str(path)


def output_name(path):
    return "standard output" if path == "-" else str(path)


def status_of(path):
    """What the system says of the file at a path; None if there is none, or if it cannot tell: what is wrong is said when it is opened."""
    try:
        return os.stat(path) if path != "-" else os.fstat(sys.stdout.fileno())
    except (AttributeError, OSError, ValueError):  # standard output may be closed, or have no descriptor
        return None


def place_of(path):
    """Where the file of a path stands, behind its symbolic links; None for what is no file, and for a descriptor, as /dev/stdout is."""
    for _ in range(MOST_LINKS):
        if os.path.realpath(os.path.dirname(path) or ".").startswith(("/proc/", "/dev/fd")):
            return None
        if not os.path.islink(path):
            break
        path = os.path.join(os.path.dirname(path), os.readlink(path))
    try:
        return path if stat.S_ISREG(os.stat(path).st_mode) else None
    except FileNotFoundError:
        return path if os.path.basename(path) else None


def take_over(descriptor, old):
    """Gives a new file the owner and the permissions of an old one, as far as the system allows that."""
    with contextlib.suppress(OSError):
        os.fchown(descriptor, old.st_uid, old.st_gid)
    with contextlib.suppress(OSError):
        os.fchmod(descriptor, stat.S_IMODE(old.st_mode))


def is_standard_output(path):
    """Whether a path is '-', or another name of the stream that standard output is."""
    if path == "-":
        return True
    found, output = status_of(path), status_of("-")
    return found is not None and output is not None and os.path.samestat(found, output) and place_of(path) is None


def same_output(one, other):
    if is_standard_output(one) or is_standard_output(other):
        return is_standard_output(one) and is_standard_output(other)
    try:
        return os.path.samefile(one, other)
    except (OSError, ValueError):
        return os.path.realpath(one) == os.path.realpath(other)


# ---- standard output

def said(lines):
    """Lines as bytes for standard output: characters that its encoding has not are escaped."""
    encoding = sys.stdout.encoding if sys.stdout is not None else "ascii"
    return "".join(f"{one_line(line)}\n" for line in lines).encode(encoding, "backslashreplace")


def write_standard_output(data):
    """Writes all the bytes. Python's own stream is passed by: if it is unbuffered, it may take a part of them only."""
    if not data:
        return
    if sys.stdout is None:
        raise Problem("standard output is closed", 2)
    try:
        stream = open(sys.stdout.fileno(), "wb", closefd=False)
    except io.UnsupportedOperation:
        stream = contextlib.nullcontext(sys.stdout.buffer)  # it has no descriptor
    with stream as file:
        file.write(data)
