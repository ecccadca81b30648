"""What is wrong in a file that is no TOML: the line of the fault, and a hint in words of the plan."""

import bisect
import re
import unicodedata
from collections.abc import Iterator
from typing import NamedTuple

from j39plan import program
from j39plan.plan.hints.names_in_numbers import name_meant
from j39plan.plan.hints.quantities import quantity
from j39plan.plan.schema import schema
from j39plan.plan.toml_places import KEY, MARK, STRING, Place, Places, fault_of

# How TOML spells integers.
INTEGER = re.compile(r"[+-]?(?:[0-9_]+|0x[0-9A-Fa-f_]+|0o[0-7_]+|0b[01_]+)")

# The marks that are taken for TOML's quotation marks.
QUOTES = "“”„‟‘’‚‛«»`´"

# Words that are taken for TOML's `true` and `false`.
TRUTHS = {"true": "true", "yes": "true", "on": "true", "false": "false", "no": "false", "off": "false"}

# What Python's reader says of a table or a key that doesn't go with those above it, and of what stands behind a value.
TWICE = ("Cannot overwrite a value", "Cannot declare", "Cannot mutate")
BEHIND = "Expected newline or end of document after a statement"

# What else it says, and the same in words of who writes a plan.
SAID = (
    ("Unescaped '\\'", r"\ in a text: write \\, or the text between ' and '"), ("Expected ']]' at the end of an array declaration", "[[ is closed by ]]"),
    ("Expected ']' at the end of a table declaration", "[ is closed by ]"), ("Invalid initial character for a key part", "a key is letters, digits, _ and -"),
    ("Invalid statement", "neither key = value nor a header in [ ]"),
)

# How files of other kinds begin, and what to do with them.
OTHERS = (
    (re.compile(r'(?:\s*VERSION\s+".*"|\s*NS_\s*:|\s*BU_\s*:|\s*BO_ \d)'), "this is a DBC: dbc2plan makes a plan of it"),
    (re.compile(r"\s*<(?:\?xml|[A-Za-z!])"), "this is XML, and a plan is TOML: dbc2plan makes one of KCD and ARXML files"),
    (re.compile(r"[^\n=\[{#]*[;,\t][^\n=\[{#]*[;,\t][^\n=\[{#]*\n"), "this is a table, and a plan is TOML: dbc2plan makes one of a DBC"),
)

# The marks with which files of two bytes a character begin.
WIDE = (b"\xff\xfe", b"\xfe\xff")

# A number with a mark between its digits.
MARKED = re.compile(r"\d{1,3}(?:[,'’]\d{3})+")

# What begins a comment in other languages, behind a value; the marks of a merge that isn't finished.
COMMENT = re.compile(r"\s*(;|--|//)")
MERGE = re.compile(r"<{7}|={7}|>{7}|\|{7}")

# A text on one line.
ON_ONE_LINE = re.compile(r"""\"(?:\\.|[^"\\])*"|'[^']*'""")

# So much of a value is shown.
SHOWN = 50

BARE = re.compile(r"[^,}\]#\r\n]*")
HEX = re.compile(r"(?:0[xX])?_?([0-9A-Fa-f]+)[hH]?")
PAIR = re.compile(rf"\s*(?P<key>{KEY.pattern})\s*=")
KEY_AT_END, KEY_MOST = re.compile(rf"(?:{KEY.pattern})$"), 100
HEADER = re.compile(r"\[\[?\s*([A-Za-z0-9_.-]+)\s*\]")

# A line of the file, 1 where nothing better is known, and a hint.
Told = tuple[int, str | None]


class Statement(NamedTuple):
    """The first statement that isn't TOML: the file's text, and where it begins and ends there."""

    text: str
    places: Places
    start: int
    end: int

    def line(self, at: int) -> int:
        """The line of a position."""
        return self.places.line_at(at)


def is_no_toml(text: str) -> bool:
    """Whether the program refuses a text as no TOML."""
    with program.file_of(text) as file:
        return program.call(["check", "--", file])[1].startswith("refused Text")


def faulty_statement(text: str, places: Places) -> Statement:
    """The first statement that the program doesn't take after those above it."""
    starts = [0, *places.statements]
    at = bisect.bisect_left(starts, True, lo=1, key=lambda start: is_no_toml(text[:start]))
    return Statement(text, places, starts[at - 1], starts[at] if at < len(starts) else len(text))


def tokens(statement: Statement) -> Iterator[tuple[int, str]]:
    """The characters of a statement outside of texts and comments, each with its position; of a text that isn't closed the quotation mark."""
    text, at = statement.text, statement.start
    at += text.startswith(MARK, at)
    while at < statement.end:
        if text[at] == "#":
            end = text.find("\n", at)
            at = end if end >= 0 else len(text)
        elif text[at] in "\"'" and (whole := STRING.match(text, at)):
            at = whole.end()
        else:
            yield at, text[at]
            at += 1


def strange_character(statement: Statement) -> Told | None:
    """A character outside of texts that TOML has only in texts."""
    for at, char in tokens(statement):
        if char in "\"'":
            return None
        if char in QUOTES:
            return statement.line(at), f'{char} is no quotation mark: write "'
        if not char.isascii():
            is_blank = unicodedata.category(char) in ("Zs", "Cf")
            return statement.line(at), f"character U+{ord(char):04X} {'is no blank' if is_blank else 'stands only in a text'}"
    return None


def unclosed(statement: Statement) -> Told | None:
    """What is opened in a statement and not closed: a text, a table or an array."""
    pairs, opened = {"}": "{", "]": "["}, list[tuple[int, str]]()
    for at, char in tokens(statement):
        if char in "\"'":
            return statement.line(at), f"{char} isn't closed"
        if char in "{[":
            opened.append((at, char))
        elif char in pairs and opened:
            if opened[-1][1] != pairs[char]:
                break
            opened.pop()
    if not opened:
        return None
    at, char = opened[0] if opened[0][1] == "{" else opened[-1]
    if text_line(statement, at).lstrip().startswith("[["):
        return statement.line(at), "[[ is closed by ]]"
    return statement.line(at), f"{char} isn't closed"


def text_line(statement: Statement, at: int) -> str:
    """The line of a position."""
    return statement.text[statement.text.rfind("\n", 0, at) + 1:].partition("\n")[0]


def wants(key: str) -> set[str]:
    """The types that the schema has for a key, of whatever tables."""
    definitions = schema()["definitions"]
    rules = [rule["properties"][key] for rule in (schema(), *definitions.values()) if key in rule.get("properties", {})]
    resolved = [definitions[rule["$ref"].split("/")[-1]] if "$ref" in rule else rule for rule in rules]
    return {rule["type"] for rule in resolved if "type" in rule}


def value_hint(key: str, spelled: str) -> str | None:
    """A hint at a value that isn't spelled as TOML spells it."""
    types = wants(key)
    if not spelled or spelled.startswith("="):
        return f"key {key}: one = and then a value"
    if spelled.lower() in TRUTHS and (types == {"boolean"} or not types and spelled.lower() in ("true", "false")):
        return f"{key} = {spelled}: write {TRUTHS[spelled.lower()]}"
    if spelled.isdecimal() and len(spelled) <= SHOWN:
        return f"{key} = {spelled}: a number has no 0 in front: {int(spelled)}" if spelled.startswith("0") else None
    if "integer" not in types:
        return f'{key} = {spelled}: a text needs quotes: "{spelled}"' if len(spelled) <= SHOWN else f"key {key}: a text needs quotes"
    number = HEX.fullmatch(spelled) if len(spelled) <= SHOWN else None
    if number:
        return f"{key} = {spelled}: a hexadecimal number is 0x{number.group(1).upper()}"
    meant = quantity(key, spelled)
    return f"{key} = {spelled[:SHOWN]}: an integer is wanted{f': {meant}' if meant and meant != spelled else ''}"


def value_at(statement: Statement, line: int, column: int) -> tuple[str, str] | None:
    """The key and the value without quotation marks, in or before which Python's reader finds a fault at a line and a column."""
    whole = statement.text.split("\n")[line - 1]
    head, equals, _ = whole[:column - 1].rpartition("=")
    key, found = KEY_AT_END.search(head[-KEY_MOST:].rstrip()), BARE.match(whole, len(head) + 1)
    value = found.group().strip() if found else ""
    if not equals or key is None or value[:1] in ("{", "[", '"', "'") and value:
        return None
    return key.group().strip("\"'"), value


def place_of(statement: Statement, keys: list[str]) -> Place:
    """The place of a table that the statement's header names."""
    place: Place = ()
    for key in keys[:-1]:
        place += (key,)
        above = [other for other in statement.places.elements(place) if statement.places.line(other) < statement.line(statement.start)]
        place = above[-1] if above else place
    return place + (keys[-1],)


def repeated_table(statement: Statement) -> Told | None:
    """A hint at a header that doesn't go with one above it."""
    header, line = HEADER.match(statement.text, statement.start), statement.line(statement.start)
    first = statement.places.lines.get(place_of(statement, header.group(1).split("."))) if header else None
    if header is None or first is None or first >= line:
        return None
    name, above = header.group(1), HEADER.search(statement.text.split("\n")[first - 1])
    was_list, is_list = (found is not None and found.group().startswith("[[") for found in (above, header))
    if was_list and above is not None and above.group(1).startswith(f"{name}."):
        return first, f"[[{above.group(1)}]] belongs below a [[{name}]], and the first one is at line {line}"
    if is_list == was_list:
        return line, f"[{name}] stands at line {first} too"
    if was_list:
        return line, f"[[{name}]] at line {first} makes this a list: write [[{name}]] here too"
    if above is None or above.group(1) != name:
        return first, f"[[{name}]] at line {line} makes a list, and belongs above this line"
    return first, f"[[{name}]] at line {line} makes this a list: write [[{name}]] here too"


def repeated_key(statement: Statement, line: int) -> str | None:
    """A hint at a key that the table of a line has already."""
    lines = statement.text.split("\n")
    found = PAIR.match(lines[line - 1])
    for number in range(line - 1, 0, -1) if found else ():
        above = PAIR.match(lines[number - 1])
        if lines[number - 1].lstrip().startswith("["):
            break
        if found and above and above.group("key") == found.group("key"):
            return f"key {found.group('key')} stands at line {number} too"
    return None


def said_by_reader(statement: Statement, line: int, said: str) -> Told:
    """What Python's reader says of a fault, in words of the plan where there are some."""
    at = re.search(r"at line \d+, column (\d+)", said)
    if found := re.match("Duplicate inline table key '(.*)'", said):
        return line, f"key {found.group(1)} stands there twice"
    if said.startswith(TWICE):
        return repeated_table(statement) or (line, repeated_key(statement, line) or said)
    if said.startswith("Expected '=' after a key"):
        return line, "a key and its value have = between them"
    if at and said.startswith(("Invalid value", BEHIND)):
        if mark := COMMENT.match(statement.text.split("\n")[line - 1], int(at.group(1)) - 1):
            return line, f"a comment begins with #, and not with {mark.group(1)}"
        if marked := MARKED.search(statement.text.split("\n")[line - 1]):
            return line, f"a number has no {marked.group().strip('0123456789')[:1]} in it: {re.sub('[^0-9]', '', marked.group())}"
        value = value_at(statement, line, int(at.group(1)))
        return line, value and value_hint(*value) or ("after a value the line ends" if said.startswith(BEHIND) else said)
    if at and said.startswith(("Unclosed inline table", "Unclosed array")):
        behind = re.match(r"[^\s,}\]]*", statement.text.split("\n")[line - 1][int(at.group(1)) - 1:])
        return line, f"a comma is missing before {behind.group()}" if behind and behind.group() else said
    if MERGE.match(statement.text.split("\n")[line - 1]):
        return line, "a merge of two versions that isn't finished: keep one of them, without these marks"
    if said.startswith("Invalid statement") and statement.text.split("\n")[line - 1].lstrip().startswith("{"):
        return line, "this is JSON, and a plan is TOML: version = 4, [[unit]] and so on"
    return line, next((words for begin, words in SAID if said.startswith(begin)), said)


def missing_comma(statement: Statement) -> Told | None:
    """A line of an inline table over several lines that lacks a comma at its end."""
    first, above, depth = statement.line(statement.start), "", 0
    at = first
    for number, line in enumerate(statement.text[statement.start:statement.end].split("\n"), first):
        code = ON_ONE_LINE.sub("''", line).partition("#")[0].strip()
        if depth > 0 and PAIR.match(code) and not above.endswith((",", "{", "[")):
            return at, "a comma is missing at the end of this line"
        if code:
            at, above = number, code
        depth += code.count("{") - code.count("}")
    return None


def is_beyond_64_bits(spelled: str) -> bool:
    """Whether a value is an integer that no 64 bits hold."""
    if not INTEGER.fullmatch(spelled):
        return False
    try:
        return not -2**63 <= int(spelled, 0) < 2**63
    except ValueError:  # a leading zero, or more digits than Python reads
        return len(spelled) > 1000


def statement_fault(statement: Statement) -> Told:
    """Line and hint of what is wrong in a statement, as far as that can be told; else its first line."""
    text, places, start, end = statement
    if told := strange_character(statement) or unclosed(statement):
        return told
    first, last = places.line_at(start), places.line_at(end)
    if not any(start <= at < end for at in places.newer):
        for part in (text[:end].removeprefix(MARK), "\n" * (first - 1) + text[start:end].removeprefix(MARK)):
            line, said = fault_of(part) or (0, "")
            if first <= line <= last:
                return said_by_reader(statement, line, said)
    for place, spelled in places.spelled.items():
        if first <= places.line(place) <= last and is_beyond_64_bits(spelled):
            is_name = place[-1] == "name" and 0 <= int(spelled, 0) < 1 << 64
            return places.line(place), f"name is a table of the fields: {name_meant(int(spelled, 0))}" if is_name else "an integer beyond 64 bits"
    return missing_comma(statement) or (first, None)


def text_fault(places: Places, data: bytes) -> Told:
    """Line and hint of a file that is no TOML."""
    try:
        text = data.decode()
    except UnicodeDecodeError as fault:
        if data.startswith(WIDE):
            return 1, "this is UTF-16: save the file as UTF-8"
        meant = data[fault.start:fault.start + 1].decode("cp1252", errors="replace")
        shown = f", {meant} by Windows-1252" if meant.isprintable() and meant != "\ufffd" else ""
        return data.count(b"\n", 0, fault.start) + 1, f"byte {data[fault.start]:02X} is no UTF-8{shown}: save the file as UTF-8"
    statement = faulty_statement(text, places)
    other = next((said for begin, said in OTHERS if begin.match(text.removeprefix(MARK))), None)
    return (1, other) if other and statement.start <= len(MARK) else statement_fault(statement)
