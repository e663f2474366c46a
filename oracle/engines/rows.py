"""The rows of docs/DIFFERENCES.md that are about readers: for an engine, an op of engine.js and a text, the row under which the text falls, and what the
engine and the library answer there. The library's side is written from document 01 (docs/SCOPE.md), the engines' side was found by asking them. The text
alone decides, with one thing that only the engine can say: which names of zones and calendars it knows."""
import collections
import re

from forms import (CHROMIUM, COMPACT_DATE, COMPACT_TIME, COMPACT_ZONE, DOTS, FIREFOX, KEY_BYTES, LONGEST, LOOKS_LIKE_A_DATE, MORE, SINGLE, VALUE_BYTES,
                   ZONE_BYTES, nanoseconds)

LONG_TEXT = 21
FINDER_NUL = 31
FINDER_FRACTION = 32
FINDER_TWICE = 33
FINDER_NAME = 34
FINDER_Z = 35
RANGE = 36
UNKNOWN_CALENDAR = 37
ISLAMIC = 38
UNKNOWN_ZONE = 39
SKIPPED = 40
CONVERTED = 41
SPLIT_FRACTION = 42
UNIT_TWICE = 43
LARGE_DURATION = 44
WRAPPED = 45

BOTH = (CHROMIUM, FIREFOX)
ROWS = {  # what each is about, and the engines that differ from the library there
    LONG_TEXT: ("a text over 1,024 bytes", BOTH),
    LOOKS_LIKE_A_DATE: ("a compact time without T that begins like a date", (FIREFOX,)),
    COMPACT_DATE: ("a compact date", BOTH),
    COMPACT_TIME: ("a compact time or offset, or an hour alone", BOTH),
    COMPACT_ZONE: ("a zone that is a compact offset", BOTH),
    DOTS: ("a zone with a part `.` or `..`", BOTH),
    ZONE_BYTES: ("a zone with characters that are not tested", (CHROMIUM,)),
    KEY_BYTES: ("a key with a character that is not tested", (CHROMIUM,)),
    VALUE_BYTES: ("a value with characters that are not tested", (CHROMIUM,)),
    SINGLE: ("an annotation with a key, a value or a run of one character", (CHROMIUM,)),
    FINDER_NUL: ("finder: NUL as the separator", (CHROMIUM,)),
    FINDER_FRACTION: ("finder: a fraction of more than nine digits", (CHROMIUM,)),
    FINDER_TWICE: ("finder: a time with its calendar twice, one critical", (CHROMIUM,)),
    FINDER_NAME: ("finder: the bare name of a calendar", BOTH),
    FINDER_Z: ("finder: Z", (FIREFOX,)),
    RANGE: ("beyond the limits of Temporal", BOTH),
    UNKNOWN_CALENDAR: ("a calendar that the engine does not know", BOTH),
    ISLAMIC: ("the calendar islamic", (CHROMIUM,)),
    UNKNOWN_ZONE: ("a zone that the engine does not know", BOTH),
    SKIPPED: ("a clock time that the zone skips", BOTH),
    CONVERTED: ("a year-month or month-day in another calendar", BOTH),
    SPLIT_FRACTION: ("duration: a fraction of hours or minutes", BOTH),
    UNIT_TWICE: ("duration: a unit twice", (CHROMIUM,)),
    LARGE_DURATION: ("duration: 2^53 seconds or more", BOTH),
    WRAPPED: ("duration: numbers of 64 bits that wrap", (CHROMIUM,)),
    MORE: ("a year-month or month-day with more after its brackets", (CHROMIUM,)),
}

# What was read of a text: a date, a clock in nanoseconds, an offset ("Z" or nanoseconds), names; None where absent. Of a duration: a list of numbers.
Parts = collections.namedtuple("Parts", "date clock offset zone calendar")

# What a text is to the library and to an engine. row: None where both answer the same. ours, theirs: the parts, or None for a refusal; where the library
# refuses what the engine takes, ours is the refusal's number. either: the engine may also refuse.
Verdict = collections.namedtuple("Verdict", "row ours theirs either", defaults=(False,))
REFUSED = Verdict(None, None, None)


class Names:
    """The names of zones and calendars that the engines know, and how they write them."""

    def __init__(self):
        self.written = {}

    def learn(self, engine, op, name, answer):
        if answer.startswith("OK "):
            self.written[engine, op, name] = answer[3:]

    def zone(self, engine, name):
        return self.written.get((engine, "zonename", name))

    def calendar(self, engine, name):
        return "iso8601" if name is None else self.written.get((engine, "calname", name))


# ---- numbers

SECOND = 10**9
HOUR = 3600 * SECOND
DAY = 24 * HOUR
LIMIT = 10**8 * DAY


def day_number(date):
    """1970-01-01 is 0."""
    year, month, day = date
    year -= month <= 2
    return year * 365 + year // 4 - year // 100 + year // 400 + (153 * ((month + 9) % 12) + 2) // 5 + day - 719_469


def valid(date):
    year, month, day = date
    if (month, day) == (2, 29):
        return year % 4 == 0 and (year % 100 != 0 or year % 400 == 0)
    return day <= LONGEST[month - 1]


def local(parts):
    """Date and clock in nanoseconds since 1970-01-01T00:00; no time is midnight."""
    return day_number(parts.date) * DAY + (parts.clock or 0)


def instant(parts):
    return local(parts) - (0 if parts.offset == "Z" else parts.offset)


def date_text(date):
    year, month, day = date
    digits = "%04d" % year if 0 <= year <= 9999 else "%+07d" % year
    return "%s-%02d-%02d" % (digits, month, day)


def clock_text(clock):
    seconds, fraction = divmod(clock or 0, SECOND)
    text = "%02d:%02d:%02d" % (seconds // 3600, seconds // 60 % 60, seconds % 60)
    return text + (".%09d" % fraction).rstrip("0") if fraction else text


# ---- zones

GREENWICH = re.compile(r"(?:Etc/)?(?:UTC|UCT|GMT|Greenwich|Universal|Zulu|GMT[+-]?0)")
# zones of texts.py with rules of their own: their offsets in seconds long ago and far ahead
RULED = {"Asia/Kolkata": (21_208, 19_800), "Europe/Paris": (561, 7_200), "America/Argentina/ComodRivadavia": (-15_788, -10_800)}


def fixed_offset(zone):
    """The offset of a zone that has always the same one; None for the others."""
    if zone[0] in "+-":
        size = nanoseconds(zone[1:3], zone[4:6], None, None)
        return -size if zone[0] == "-" else size
    if GREENWICH.fullmatch(zone):
        return 0
    hours = re.fullmatch(r"Etc/GMT([+-]\d+)", zone)
    return -int(hours[1]) * HOUR if hours else None


def zoned_instant(op, parts, zone):
    """The instant of a zoned text; None where it takes the rules of a zone to say."""
    if parts.offset == "Z" or op == "zuse" and parts.offset is not None:
        return instant(parts)
    fixed = fixed_offset(zone)
    if zone in RULED and abs(local(parts)) > LIMIT - DAY:
        fixed = RULED[zone][parts.date[0] > 0] * SECOND
    return None if fixed is None else local(parts) - fixed


def skips(zone, parts):
    """Summer time: Paris, from 1996 on, skips the hour from 02:00 on the last Sunday of March."""
    year, month, day = parts.date
    sunday = day_number(parts.date) % 7 == 3
    return zone == "Europe/Paris" and parts.offset != "Z" and year >= 1996 and month == 3 and day >= 25 and sunday and (parts.clock or 0) // HOUR == 2


# ---- what an engine shows of the parts

ISO_MONTHS = ("iso8601", "gregory", "buddhist", "japanese", "roc")  # calendars with the months of ISO 8601
ZONED = re.compile(r"(-?\d+) (.*)([+-]\d\d:\d\d)\[(.*)\]\[u-ca=(.*)\]")


def shows(engine, op, parts, answer, names):
    """Whether the answer is of these parts, as far as the op shows them."""
    if not answer.startswith("OK "):
        return False
    answer = answer[3:]
    if op == "dur":
        return answer == " ".join(map(str, parts))
    if op == "time":
        return answer == clock_text(parts.clock)
    if op == "instant":
        return answer == str(instant(parts))
    calendar = names.calendar(engine, parts.calendar)
    if op == "cal":
        return answer == calendar
    if op in ("zoned", "zuse"):
        return shows_zoned(op, parts, answer, names.zone(engine, parts.zone), calendar)
    if converts(engine, op, parts, names):
        return shows_month(op, parts, answer, calendar)
    year, month, day = parts.date
    text = {"plain": date_text(parts.date) + "T" + clock_text(parts.clock), "date": date_text(parts.date), "ym": date_text((year, month, 1)),
            "md": date_text((1972, month, day))}[op]
    return answer == f"{text}[u-ca={calendar}]"


def shows_zoned(op, parts, answer, zone, calendar):
    if zone is None:
        return False
    time = zoned_instant(op, parts, zone)
    if op == "zuse":
        shown, _, name = answer.partition(" ")
        return name == zone and (abs(int(shown) - local(parts)) < DAY if time is None else int(shown) == time)
    match = ZONED.fullmatch(answer)
    if not match or match.group(4, 5) != (zone, calendar) or time is not None and int(match[1]) != time:
        return False
    return parts.offset == "Z" or match[2] == date_text(parts.date) + "T" + clock_text(parts.clock)


def shows_month(op, parts, answer, calendar):
    """Of a month in another calendar: the day on which it begins; of a month-day no more than the calendar is looked at."""
    match = re.fullmatch(r"([+-]?\d+)-(\d\d)-(\d\d)\[u-ca=(.*)\]", answer)
    if not match or match[4] != calendar:
        return False
    return op == "md" or 0 <= day_number(parts.date) - day_number((int(match[1]), int(match[2]), int(match[3]))) <= 30


# ---- rows about values: what an engine reads and then refuses, or changes


def beyond(op, parts, zone, calendar):
    """Beyond the limits of Temporal."""
    if op == "plain":
        return abs(local(parts)) >= LIMIT + DAY
    if op == "date" or op == "md" and calendar != "iso8601":
        return abs(day_number(parts.date) * DAY + DAY // 2) >= LIMIT + DAY
    if op == "ym":
        return not (-271_821, 4) <= parts.date[:2] <= (275_760, 9)
    if op == "instant":
        return abs(instant(parts)) > LIMIT
    if op in ("zoned", "zuse"):
        return abs(zoned_instant(op, parts, zone) or 0) > LIMIT
    return False


def refused_value(engine, op, parts, names):
    """The row for which the engine refuses what it has read; None if it takes it."""
    calendar = names.calendar(engine, parts.calendar)
    if calendar is None and op not in ("instant", "time"):
        return UNKNOWN_CALENDAR
    zone = names.zone(engine, parts.zone) if op in ("zoned", "zuse") else ""
    if zone is None:
        return UNKNOWN_ZONE
    return RANGE if beyond(op, parts, zone, calendar) else None


# ---- texts with a date or a time

KINDS = {
    "plain": ("stamp",),
    "date": ("stamp",),
    "zoned": ("stamp",),
    "zuse": ("stamp",),
    "instant": ("stamp",),
    "time": ("time", "stamp"),
    "ym": ("year-month", "stamp"),
    "md": ("month-day", "stamp"),
    "cal": ("stamp", "time", "year-month", "month-day"),
}


def iso(calendar):
    return calendar is None or calendar.lower() == "iso8601"


def refused_by_all(op, head, tail, calendar):
    """What document 01 and the engines refuse alike: refusals 7, 9 and 11 to 13, a time that is a date too, and more after the brackets of a stamp or
    a time."""
    part_of_date = head.kind in ("year-month", "month-day")
    return (
        any(critical and key != "u-ca" for critical, key, _ in tail.notes)
        or part_of_date and not iso(calendar)
        or not part_of_date and MORE in tail.wider
        or head.date is not None and not valid(head.date)
        or head.offset == "Z" and op not in ("zoned", "zuse", "instant", "cal")
        or op in ("zoned", "zuse") and tail.zone is None
        or op == "instant" and head.offset is None
        or op == "time" and head.clock is None
        or head.kind == "time" and head.is_also_a_date()
    )


def form_rows(engine, op, head, tail, calendars):
    """The rows for which the engine takes what document 01 refuses, and those of the other way; None where both refuse."""
    wider, narrower = head.wider | tail.wider, set(tail.narrower)
    open_finder = op == "cal" and engine == CHROMIUM
    first_critical, first = calendars[0] if calendars else (False, None)
    if any(critical or first_critical for critical, _ in calendars[1:]):
        clash = any(value != first and (critical or first_critical) for critical, value in calendars[1:])
        if clash or not open_finder or head.kind != "time":
            return None
        wider.add(FINDER_TWICE)
    if head.long_time or head.long_offset:
        if not open_finder or head.long_offset and head.kind != "time":
            return None
        wider.add(FINDER_FRACTION)
    if head.kind == "time" and head.begins_like_a_date():
        if engine == CHROMIUM:
            return None
        wider.add(LOOKS_LIKE_A_DATE)
    if op == "cal" and engine == FIREFOX and head.kind == "time" and head.offset == "Z":
        narrower.add(FINDER_Z)
    return wider, narrower


def changed(engine, op, parts, names):
    """What the engine makes of the parts, and the row for it."""
    if engine == CHROMIUM and op not in ("cal", "instant", "time") and (parts.calendar or "").lower() == "islamic":
        return parts._replace(calendar="islamic-civil"), None if op == "zuse" else ISLAMIC  # zuse shows no calendar
    if op == "cal" and engine == FIREFOX and parts.offset == "Z":
        return parts._replace(calendar=None), None if iso(parts.calendar) else FINDER_Z
    if op == "zoned" and skips(names.zone(engine, parts.zone), parts):
        return parts._replace(clock=parts.clock + HOUR), SKIPPED
    return parts, CONVERTED if converts(engine, op, parts, names) else None


def converts(engine, op, parts, names):
    return op in ("ym", "md") and names.calendar(engine, parts.calendar) not in ISO_MONTHS


def number(wider, head=None):
    """The refusal that document 01 gives where an engine goes beyond it."""
    if LONG_TEXT in wider:
        return 5
    return 8 if wider == {FINDER_FRACTION} and head.kind == "stamp" else 6


def too_large(text):
    return len(text.text.encode()) > 1024


def form_verdict(engine, op, text, head, tail, names):
    """The verdict by one form of a text; None where the engine does not read it so, and document 01 neither."""
    calendars = [(critical, value) for critical, key, value in tail.notes if key == "u-ca"]
    ours = Parts(head.date, head.clock, head.offset, tail.zone, calendars[0][1] if calendars else None)
    rows = None if refused_by_all(op, head, tail, ours.calendar) else form_rows(engine, op, head, tail, calendars)
    if not rows:
        return None
    wider, narrower = rows
    if too_large(text):
        wider.add(LONG_TEXT)
    if "\0" in text.text[: text.bracket]:
        wider.add(FINDER_NUL)
    theirs, change = changed(engine, op, ours, names)
    refused = refused_value(engine, op, theirs, names)
    if refused:
        narrower.add(refused)
    if narrower:
        return REFUSED if wider else Verdict(min(narrower), ours, None)
    # a newer Chromium looks at what follows the brackets; the month of another calendar may begin beyond the limit
    either = MORE in wider or op == "ym" and ours.date[:2] == (-271_821, 4) and converts(engine, op, theirs, names)
    return Verdict(min(wider), number(wider, head), theirs, either) if wider else Verdict(change, ours, theirs, either)


def verdict(engine, op, text, names):
    """For a forms.Text."""
    if op == "dur":
        return duration_verdict(engine, text)
    seen = text.seen_by(engine, op)
    tail = seen.tail(engine)
    for kind in KINDS[op]:
        head = tail and seen.head(kind)
        found = head and form_verdict(engine, op, text, head, tail, names)
        if found:
            return found
    if op == "cal" and names.calendar(engine, text.text):
        return Verdict(FINDER_NAME, 6, Parts(None, None, None, None, text.text))
    return REFUSED


# ---- durations

DURATION = re.compile(r"([+-]?)P((?:\d+[YMWD])*)(?:T((?:\d+(?:[.,]\d+)?[HMS])+))?", re.ASCII | re.IGNORECASE)
PIECE = re.compile(r"(\d+)(?:[.,](\d+))?([A-Z])")
WIDTHS = (2**32, 2**32, 2**32, 2**64, 2**64, 2**64, 2**64)  # of years to seconds
TOO_LONG = 2**53  # seconds


def pieces_of(match):
    """The numbers of a duration, each with the digits of its fraction and the place of its unit."""
    for part, units, first in ((match[2], "YMWD", 0), (match[3] or "", "HMS", 4)):
        for digits, fraction, unit in PIECE.findall(part.upper()):
            yield int(digits), fraction, first + units.index(unit)


def amounts(pieces):
    """Years to nanoseconds; of a unit that stands twice, the last."""
    numbers = [0] * 7
    for amount, fraction, place in pieces:
        numbers[place] = amount
        rest = int(fraction.ljust(9, "0")) * (3600, 60, 1)[place - 4] if fraction else 0
    if rest >= SECOND:
        numbers[5] += rest // (60 * SECOND)
        numbers[6] += rest // SECOND % 60
    rest %= SECOND
    return [*numbers, rest // 10**6, rest // 10**3 % 1000, rest % 1000]


def shown_duration(sign, numbers):
    """As the engines show them: the sign of the whole, and each number with it."""
    numbers = [sign * n for n in numbers]
    return [next(((n > 0) - (n < 0) for n in numbers if n), 0), *numbers]


def too_long(numbers):
    days, hours, minutes, seconds = numbers[3:7]
    return abs(days * 86_400 + hours * 3600 + minutes * 60 + seconds) >= TOO_LONG


def wrapped(numbers):
    """The numbers as Chromium takes them: those of 64 bits with a sign."""
    return [n - 2**64 if n >= 2**63 else n for n in numbers]


def duration_verdict(engine, text):
    match = DURATION.fullmatch(text.text)
    pieces = list(pieces_of(match)) if match else []
    places = [place for _, _, place in pieces]
    fractions = [fraction for _, fraction, _ in pieces]
    if not pieces or places != sorted(places) or any(fractions[:-1]) or len(fractions[-1]) > 9:
        return REFUSED
    twice = len(set(places)) < len(places)
    if twice and engine == FIREFOX or any(amount >= WIDTHS[place] for amount, _, place in pieces):
        return REFUSED
    split = fractions[-1] and places[-1] < 6
    wider = {row for row, there in ((LONG_TEXT, too_large(text)), (UNIT_TWICE, twice), (SPLIT_FRACTION, split)) if there}
    numbers = amounts(pieces)
    sign = -1 if match[1] == "-" else 1
    row, ours = None, shown_duration(sign, numbers)
    if too_long(numbers):
        row, numbers = WRAPPED, wrapped(numbers)
        if engine == FIREFOX or too_long(numbers) or min(numbers) < 0 < max(numbers):
            return REFUSED if wider else Verdict(LARGE_DURATION, ours, None)
    theirs = shown_duration(sign, numbers)
    return Verdict(min(wider), number(wider), theirs) if wider else Verdict(row, ours, theirs)
