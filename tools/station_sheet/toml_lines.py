"""The lines of a TOML text on which its tables and keys stand. The text is one that tomllib has read, but for 'long_key'."""
import re
import tomllib

PART = r"""(?:[A-Za-z0-9_-]+|"(?:\\.|[^"\\])*"|'[^']*')"""
KEY = re.compile(rf"{PART}(?:\s*\.\s*{PART})*(?=\s*=)")
STRING = re.compile(r""""(?:\\.|[^"\\])*+"|'[^']*+'""")
# More parts than a key of a description has; for thousands of them tomllib takes hours.
MOST_PARTS = 16
LONG_KEY = re.compile(rf"(?<![\w-])(?:(?:[A-Za-z0-9_-]++|{STRING.pattern})[ \t]*+\.[ \t]*+){{{MOST_PARTS}}}")


class Lines:
    """Finds the line of a path: names, and the number of a table in an array of tables."""

    def __init__(self, text):
        self.text, self.found = text, None

    def of(self, path):
        """The line of a path, or of the nearest table around it; None if the text has neither."""
        if self.found is None:
            self.found = scan(self.text)
        while path and path not in self.found:
            path = path[:-1]
        return self.found.get(path)


def scan(text):
    found, last, table = {}, {}, ()
    for number, statement in statements(text):
        if statement.startswith("["):
            parts, table = list(names(statement)), ()
            for k, name in enumerate(parts):
                table += (name,)
                if k == len(parts) - 1 and statement.startswith("[["):
                    last[table] = last.get(table, -1) + 1
                if table in last:
                    table += (last[table],)
            found.setdefault(table, number)
        elif key := KEY.match(statement):
            found.setdefault(table + tuple(names(f"{key[0]} = 0")), number)
    return found


def names(statement):
    """The names of a header or of a key, taken apart by tomllib."""
    part = re.match(rf"\[+\s*{PART}(?:\s*\.\s*{PART})*\s*\]+", statement) if statement.startswith("[") else None
    inner = tomllib.loads(part[0] if part else statement)
    while isinstance(inner, dict) and inner:
        name, inner = next(iter(inner.items()))
        yield name
        inner = inner[0] if isinstance(inner, list) else inner


def statements(text):
    """Each statement's line and its text on that line; the later lines of a string or an array of several lines are none."""
    depth, quote = 0, None
    for number, line in enumerate(text.split("\n"), 1):
        if depth == 0 and quote is None and line.strip() and not line.strip().startswith("#"):
            yield number, line.strip()
        depth, quote = after_line(line, depth, quote)


def after_line(line, depth, quote):
    """How many brackets are open after a line, and the quotes of a string that goes on."""
    bare, quote = without_strings(line, quote)
    return depth + sum(map(bare.count, "[{")) - sum(map(bare.count, "]}")), quote


def without_strings(line, quote):
    """A line with "" in the place of each string, and without its comment; and the quotes of a string that goes on."""
    at, bare = 0, []
    while at < len(line):
        if quote is not None:
            at, quote = in_string(line, at, quote)
        elif line[at] == "#":
            break
        elif line.startswith(('"""', "'''"), at):
            quote, at = line[at:at + 3], at + 3
        elif line[at] in "\"'":
            string = STRING.match(line, at)
            at = string.end() if string else len(line)
            bare.append('""')
        else:
            bare.append(line[at])
            at += 1
    return "".join(bare), quote


def in_string(line, at, quote):
    """Where a string of several lines goes on or has ended, and its quotes if it goes on."""
    if not line.startswith(quote, at):
        return at + (2 if quote == '"""' and line[at] == "\\" else 1), quote
    at += 3
    while line.startswith(quote[0], at):
        at += 1
    return at, None


def long_key(text):
    """The first line with a key of more parts than any description has, or None. The text need not be TOML."""
    if LONG_KEY.search(text) is None:
        return None
    quote = None
    for number, line in enumerate(text.split("\n"), 1):
        bare, quote = without_strings(line, quote)
        if LONG_KEY.search(bare):
            return number
    return None
