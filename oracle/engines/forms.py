"""What a text is to an engine: what stands before its brackets, what stands in them, and each place where its form goes beyond document 01
(docs/SCOPE.md) or where the engine stays behind it. Such a place is noted under its row of docs/DIFFERENCES.md (rows.py has them all)."""
import re

CHROMIUM, FIREFOX = "chromium", "firefox"

LOOKS_LIKE_A_DATE = 22
COMPACT_DATE = 23
COMPACT_TIME = 24
COMPACT_ZONE = 25
DOTS = 26
ZONE_BYTES = 27
KEY_BYTES = 28
VALUE_BYTES = 29
SINGLE = 30
MORE = 46

# ---- before the brackets: the separated and the compact forms; numbers are within their range

YEAR = r"(?P<year>(?!-000000)[+-]\d{6}|\d{4})"
MONTH = r"(?P<month>0[1-9]|1[0-2])"
DAY = r"(?P<day>0[1-9]|[12]\d|3[01])"
HOUR, MINUTE = r"(?:[01]\d|2[0-3])", r"[0-5]\d"
CLOCK = (
    rf"(?P<hour>{HOUR})(?:(?P<colon>:?)(?P<minute>{MINUTE})(?:(?P=colon)(?P<second>[0-5]\d|60)(?:[.,](?P<fraction>\d+))?)?)?"
    rf"(?:(?P<z>[Zz])|(?P<sign>[+-])(?P<ohour>{HOUR})(?:(?P<ocolon>:?)(?P<ominute>{MINUTE})(?:(?P=ocolon)(?P<osecond>{MINUTE})(?:[.,](?P<ofraction>\d+))?)?)?)?"
)
END = r"(?=\[|\Z)"
HEADS = {
    "stamp": re.compile(rf"{YEAR}(?P<hyphen>-?){MONTH}(?P=hyphen){DAY}(?:[Tt ]{CLOCK})?{END}", re.ASCII),
    "time": re.compile(rf"(?P<t>[Tt]?){CLOCK}{END}", re.ASCII),
    "year-month": re.compile(rf"{YEAR}(?P<hyphen>-?){MONTH}{END}", re.ASCII),
    "month-day": re.compile(rf"(?:--)?{MONTH}(?P<hyphen>-?){DAY}{END}", re.ASCII),
}
LONGEST = (31, 29, 31, 30, 31, 30, 31, 31, 30, 31, 30, 31)


class Head:
    """A date, a clock in nanoseconds, an offset (`Z` or nanoseconds), each None where it is absent; and whether a fraction has over nine digits."""

    def __init__(self, kind, match):
        groups = match.groupdict()
        self.kind, self.text = kind, match[0]
        self.date = self.clock = self.offset = None
        self.long_time = self.long_offset = False
        self.wider = set()
        if kind != "time":
            self.date = int(groups.get("year", 1972)), int(groups["month"]), int(groups.get("day", 1))
            if not groups["hyphen"]:
                self.wider.add(COMPACT_DATE)
        if groups.get("hour"):
            self.clock = nanoseconds(groups["hour"], groups["minute"], groups["second"], groups["fraction"])
            self.long_time = len(groups["fraction"] or "") > 9
            if not groups["colon"]:
                self.wider.add(COMPACT_TIME)
            self.read_offset(groups)
        self.designator = groups.get("t")

    def read_offset(self, groups):
        if groups["z"]:
            self.offset = "Z"
        elif groups["sign"]:
            size = nanoseconds(groups["ohour"], groups["ominute"], groups["osecond"], groups["ofraction"])
            self.offset = -size if groups["sign"] == "-" else size
            self.long_offset = len(groups["ofraction"] or "") > 9
            if not groups["ocolon"]:
                self.wider.add(COMPACT_TIME)

    def is_also_a_date(self):
        """Temporal's rule for a time without `T`: it is none if the whole of it is a year-month or a month-day too."""
        if self.designator:
            return False
        month_day = HEADS["month-day"].fullmatch(self.text)
        if month_day:
            return int(month_day["day"]) <= LONGEST[int(month_day["month"]) - 1]
        return HEADS["year-month"].fullmatch(self.text) is not None

    def begins_like_a_date(self):
        """Chromium's rule: it is none if it begins with a year-month or a month-day; day 00 counts as one."""
        if self.designator:
            return False
        month_day = re.match(r"(0[1-9]|1[0-2])-?(\d\d)", self.text, re.ASCII)
        if month_day and int(month_day[2]) <= LONGEST[int(month_day[1]) - 1]:
            return True
        return re.match(rf"\d{{4}}-?{MONTH}", self.text, re.ASCII) is not None


def nanoseconds(hour, minute, second, fraction):
    """Of a clock; second 60 is read as 59."""
    seconds = int(hour) * 3600 + int(minute or 0) * 60 + min(int(second or 0), 59)
    return seconds * 10**9 + int((fraction or "")[:9].ljust(9, "0"))


# ---- in the brackets. Temporal's forms, which are Firefox's, are document 01's and besides compact offsets and parts of dots alone

PART = r"[A-Za-z._][A-Za-z0-9._+-]*"
KEY = r"[a-z_][a-z0-9_-]*"
VALUE = r"[A-Za-z0-9]+(?:-[A-Za-z0-9]+)*"
OFFSET_NAME = rf"[+-]{HOUR}(?::?{MINUTE})?"
ZONE = re.compile(rf"\[!?({OFFSET_NAME}|{PART}(?:/{PART})*)\]", re.ASCII)
NOTE = re.compile(rf"\[(!?)({KEY})=({VALUE})\]", re.ASCII)

# Chromium's forms: a bare `.` is a character that it does not test
OPEN_OFFSET = re.compile(OFFSET_NAME, re.ASCII)
OPEN_NAME = re.compile(r"(?=[A-Za-z._])(?:(?:[A-Za-z0-9._+-]|/(?=[A-Za-z0-9._+-]))(?!\]))*.(?=\])", re.ASCII | re.DOTALL)
OPEN_KEY = re.compile(r"[a-z_](?:[a-z0-9_-](?!=))*.(?==)", re.ASCII | re.DOTALL)
OPEN_VALUE = re.compile(r".(?:[A-Za-z0-9](?!\])|-(?!\]).(?=[A-Za-z0-9]))*.(?=\])", re.ASCII | re.DOTALL)
ZONE_AHEAD = re.compile(r"\[!?(?:[a-z_][^\]=]*\]|[A-Z.+-])", re.ASCII)
SINGLE_RUN = re.compile(r"-[A-Za-z0-9](?:-|\Z)", re.ASCII)


class Tail:
    """The zone's name, or None; the annotations, each a triple of critical, key and value."""

    def __init__(self, zone, notes, wider, narrower=()):
        self.zone, self.notes, self.wider, self.narrower = zone, notes, frozenset(wider), frozenset(narrower)


def zone_rows(name):
    """The rows of a zone's name of Temporal's grammar."""
    if name[0] in "+-":
        return {COMPACT_ZONE} if len(name) != len("+00:00") else set()
    return {DOTS} if any(part in (".", "..") for part in name.split("/")) else set()


def temporal_tail(text, at):
    """The brackets by Temporal's grammar; None where they are not of it."""
    zone, notes, wider = None, [], set()
    match = ZONE.match(text, at)
    if match:
        zone, at, wider = match[1], match.end(), zone_rows(match[1])
    while match := NOTE.match(text, at):
        notes.append((match[1] == "!", match[2], match[3]))
        at = match.end()
    return Tail(zone, notes, wider) if at == len(text) else None


def open_zone(text, at):
    """A zone as Chromium reads it: its name, the place behind it, its rows. None if it is refused."""
    start = at + 1 + text.startswith("!", at + 1)
    match = (OPEN_OFFSET if text[start] in "+-" else OPEN_NAME).match(text, start)
    if not match or not text.startswith("]", match.end()):
        return None
    strict = ZONE.fullmatch(text, at, match.end() + 1)
    return match[0], match.end() + 1, zone_rows(match[0]) if strict else {ZONE_BYTES}


def open_note(text, at):
    """An annotation as Chromium reads it: the triple, the place behind it, its rows. None if it is refused."""
    critical = text.startswith("[!", at)
    key = OPEN_KEY.match(text, at + 1 + critical)
    value = key and OPEN_VALUE.match(text, key.end() + 1)
    if not value:
        return None
    rows = set()
    if not re.fullmatch(KEY, key[0], re.ASCII):
        rows.add(KEY_BYTES)
    if not re.fullmatch(VALUE, value[0], re.ASCII):
        rows.add(VALUE_BYTES)
    return (critical, key[0], value[0]), value.end() + 1, rows


def open_tail(text, at):
    """The brackets as Chromium reads them where they are not of Temporal's grammar. It reads them as long as `[` follows."""
    zone, notes, wider = None, [], set()
    if ZONE_AHEAD.match(text, at):
        found = open_zone(text, at)
        if not found:
            return None
        zone, at, wider = found
    while text.startswith("[", at):
        found = open_note(text, at)
        if not found:
            return None
        note, at, rows = found
        notes.append(note)
        wider = wider | rows
    return Tail(zone, notes, wider if at == len(text) else wider | {MORE})


def single(note):
    """A key of one character, a value of one, or a run of one behind a hyphen."""
    _, key, value = note
    return len(key) == 1 or len(value) == 1 or SINGLE_RUN.search(value) is not None


def chromium_tail(text, at):
    tail = temporal_tail(text, at)
    if tail:
        return Tail(tail.zone, tail.notes, tail.wider, {SINGLE}) if any(map(single, tail.notes)) else tail
    return open_tail(text, at)


TAILS = {CHROMIUM: chromium_tail, FIREFOX: temporal_tail}


class Text:
    """A text, its heads and tails made when they are asked for."""

    def __init__(self, text):
        self.text = text
        self.bracket = text.find("[") if "[" in text else len(text)
        self.heads, self.tails, self.seen = {}, {}, {}

    def head(self, kind):
        if kind not in self.heads:
            match = HEADS[kind].match(self.text)
            self.heads[kind] = Head(kind, match) if match else None
        return self.heads[kind]

    def tail(self, engine):
        if engine not in self.tails:
            self.tails[engine] = TAILS[engine](self.text, self.bracket)
        return self.tails[engine]

    def seen_by(self, engine, op):
        """The text as the engine behaves to see it, its string made as in engine.js. Chromium: characters where none is beyond U+00FF, else the
        bytes of UTF-8. Its finder: these bytes always, and NUL as a space."""
        finder = op == "cal"
        if engine == FIREFOX or self.text.isascii() and not (finder and "\0" in self.text):
            return self
        if finder not in self.seen:
            whole = not finder and max(self.text) <= "\xff"
            units = self.text if whole else self.text.encode().decode("latin-1")
            self.seen[finder] = Text(units.replace("\0", " ") if finder else units)
        return self.seen[finder]
