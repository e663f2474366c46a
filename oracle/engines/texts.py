"""The texts that the engines and the library are asked about: every production of the grammar of document 01 (docs/SCOPE.md), forms
beside it, damaged copies, all short texts over small alphabets, and numbers at their boundaries. The same seed gives the same texts."""
import itertools
import re
import sys

READERS = ("plain", "date", "zoned", "zuse", "instant", "time", "ym", "md", "cal")

# ---- parts, each list with good forms first, then compact ones and forms that are none

DATES = """2024-05-06 2000-02-29 1900-02-28 0000-01-01 9999-12-31 1972-02-29 1969-12-31 1970-01-01 2024-03-31 +000000-01-01 +002024-05-06
-000001-12-31 +010000-01-01 +275760-09-12 +275760-09-13 -271821-04-20 -271821-04-19""".split()
FAR_DATES = "+275760-09-14 -271821-04-18 +275761-01-01 -271822-12-31 +999999-12-31 -999999-01-01".split()
COMPACT_DATES = "20240506 +0020240506 -0000011231 00000101 20240229 +2757600913 -2718210419 +2757600914 +9999991231".split()
NO_DATES = """2023-02-29 1900-02-29 2024-04-31 2024-02-30 2024-13-01 2024-00-10 2024-01-00 2024-01-32 2024-1-01 2024-01-1 -000000-01-01 -2024-05-06
02024-05-06 +2024-05-06 2024-0506 202405-06 20230229 20241301 2024/05/06 24-05-06 -00000-01-01 +0000000-01-01 2024-05--06 2024--05-06""".split()
SEPARATORS = ["T", "t", " "]
NO_SEPARATORS = ["_", "  ", "TT", "", "\t", "T ", "\u00a0"]
TIMES = """10:15 00:00 23:59 02:30 10:15:30 00:00:00 10:15:60 23:59:60 10:15:30.5 10:15:30,5 10:15:60.5 23:59:59.999999999 10:15:30.123456789
00:00:00.000000001 10:15:30.000000000 10:15:30.120""".split()
LONG_FRACTIONS = "10:15:30.1234567890 10:15:30.0000000000 10:15:30,12345678901234567890 10:15:60.9999999999".split()
COMPACT_TIMES = "10 00 23 1015 0000 2359 101530 101560 101530.5 101530,123456789 000000 235959.999999999 101530.1234567890".split()
NO_TIMES = """24:00 24 2400 10:60 1060 10:15:61 101561 1 1: 10: 10:1 10:15: 10:15:3 1:15 10:1530 1015:30 10:15.5 10.5 1015.5 10:15:30. 10:15:30..5
10:15:30.5. 10:15:30;5 10:15:30:00 10.15 -10:15 10:-5""".split()
OFFSETS = ["", "Z", "z"] + """+05:30 -05:30 +00:00 -00:00 +23:59 -23:59 -00:01 +05:30:15 -00:00:00 -00:00:01 +05:30:15.5 -05:30:15,123456789
+00:00:00.000000001 -23:59:59.999999999""".split()
LONG_OFFSETS = "+05:30:15.1234567890 -00:00:00.0000000000 +05:30:15,12345678901234567890".split()
COMPACT_OFFSETS = "+05 -00 +23 +0530 -0530 -0000 +2359 +053015 -000000 +053015.5 -053015,123456789 -053015.1234567890".split()
NO_OFFSETS = """+24:00 +24 +2400 +05:60 +0560 +05:30:60 +053060 +5:30 +5 +05: +05:3 +05:3015 +0530:15 +05:30.5 +05.5 ++05:30 +-05:30 Z+00:00 +05:30Z
ZZ \u221205:30 05:30 +05:30:15. +05:30:15.x""".split()
ZONES = [""] + """[UTC] [utc] [!UTC] [Etc/UTC] [GMT] [Etc/GMT+5] [!Etc/GMT-14] [Asia/Kolkata] [asia/kolkata] [Europe/Paris]
[America/Argentina/ComodRivadavia] [+05:30] [!+05:30] [-23:59] [-00:00] [+00:00]""".split()
UNKNOWN_ZONES = ["[%s]" % name for name in """Foo/Bar !Foo/Bar Z z _x ... .a a. _ a A/.b/c-1+2 a/b/c ../a/... a-/b+ abcdefghijklmno u-ca A1 a/..b
a/b..""".split()] + ["[" + "a" * 65 + "]", "[" + "/".join(["abc"] * 40) + "]"]
COMPACT_ZONES = "[+05] [+0530] [!-0530] [-00] [+2359]".split()
NO_ZONES = """[] [!] [!!UTC] [UTC UTC] [a/] [/a] [a//b] [a/1] [a/-b] [a/+] [1a] [-a] [+a] [+24:00] [+05:60] [+05:30:15] [+05:30:15.5] [+053015] [+05:3]
[+5] [+] [-] [UTC!] [.] [..] [a/..] [a/.] [a/../b] [a/./b] [./a] [../a] [A=] [A=b] [a=] [=] [=b] [UTC][UTC] [UTC][+05:30] [[UTC]] [UTC]] (UTC)
[A!] [A!B] [a!] [a!b] [\u00e9] [a\u00e9] [\u00e9a] [a\u00e9b] [A*] [U/TC/] [Aa/B/1]""".split() + ["[UTC ]", "[ UTC]", "[A B]", "[a b]"]
ANNOTATIONS = [""] + """[u-ca=iso8601] [!u-ca=iso8601] [u-ca=ISO8601] [u-ca=gregory] [!u-ca=gregory] [u-ca=Gregory] [u-ca=hebrew] [u-ca=islamic-civil]
[foo=bar] [foo=bar][u-ca=gregory] [u-ca=iso8601][foo=bar] [_a=bb] [a-1=b2-33] [__=00] [u-ca=gregory][u-ca=iso8601] [u-ca=iso8601][u-ca=gregory]
[u-ca=iso8601][u-ca=iso8601] [foo=bar][foo=baz] [ab=cd][ef=gh][ij=kl] [u-cb=gregory] [u-ca-x=gregory]""".split()
REFUSED_ANNOTATIONS = """[!foo=bar] [u-ca=iso8601][!foo=bar] [u-ca=iso8601][!u-ca=iso8601] [!u-ca=iso8601][u-ca=iso8601] [!u-ca=iso8601][!u-ca=iso8601]
[u-ca=iso8601][foo=bar][!u-ca=gregory] [u-ca=iso8601][u-ca=iso8601][!u-ca=iso8601] [!u-ca=iso8601][foo=bar][u-ca=hebrew] [!foo=bar][foo=bar]
[!u-cb=gregory]""".split()
UNKNOWN_CALENDARS = """[u-ca=foobar] [!u-ca=foobar] [u-ca=gregorian] [u-ca=iso-8601] [u-ca=iso8601x] [u-ca=12345678] [u-ca=aa-bb-cc]
[u-ca=foobar][u-ca=gregory] [foo=bar][u-ca=nocal]""".split() + ["[u-ca=" + "a" * 70 + "]"]
SHORT_ANNOTATIONS = """[a=b] [a=bb] [_=bb] [ab=c] [ab=c-d] [ab=cc-d] [ab=c-dd] [ab=cc-d-ee] [ab=cc-dd-e] [ab=c-d-e] [a=b][u-ca=gregory] [u-ca=gregory][a=b]
[x=1][x=2] [u-ca=a] [!a=b] [a--=b] [a_b=c] [_=_]""".split()
NO_ANNOTATIONS = """[aB=bb] [a[=bb] [a]=bb] [u-ca =iso8601] [a!=bb] [a==bb] [ab==cc] [u-ca==iso8601] [abC=dd] [aBc=dd] [Ab=cc] [1a=bb] [-a=bb] [=bb] [aa=]
[aa=-b] [aa=b-] [aa=-] [aa=--] [aa=bc_] [aa=_bc] [aa=b_c] [aa=]b] [aa=bb--cc] [aa=bb-_c] [aa=bb-_cc] [aa=bb-] [aa=bb--] [aa=b--c] [aa=b-c-] [aa==b]
[aa=b=] [aa=b=c] [aa=bb [aa=bb]] [aa=bb]x [aa bb] [aa=[bb]] [!!aa=bb] [ !aa=bb] [u-ca=iso8601!] [u-ca=!gregory] [u-ca=gregory_] [u-ca=\u00e9] [u-ca=a\u00e9]
[u-ca=\u00e9a] [\u00e9a=bb] [a\u00e9=bb] [aa=b\u00e9c] [U-CA=gregory] [u-Ca=gregory] [u-cA=gregory] [!u-cA=gregory] [!aB=bb] [u-ca=iso8601][UTC] [foo=bar][UTC]
[u-ca=greg=ory] [u-c=gregory]""".split() + ["[u-ca= gregory]", "[u-ca=gregory ]", "[aa=b c]"]
YEAR_MONTHS = "2024-05 0000-01 9999-12 +002024-05 +000000-12 -000001-12 +275760-09 -271821-04".split()
FAR_YEAR_MONTHS = "+275760-10 -271821-03 +275761-01 -271822-12 +999999-01 -999999-12".split()
COMPACT_YEAR_MONTHS = "202405 000001 +00202405 -00000112 +27576009 +27576010 -27182103".split()
NO_YEAR_MONTHS = "2024-13 2024-00 202413 202400 -000000-05 -00000005 2024-5 2024-05- 2024- 2024 +2024-05 02024-05 2024-05-".split()
MONTH_DAYS = "05-06 --05-06 02-29 --02-29 12-31 --01-01 11-30".split()
COMPACT_MONTH_DAYS = "0506 --0506 0229 --1231 1130".split()
NO_MONTH_DAYS = """02-30 --02-30 04-31 13-01 00-10 01-00 01-32 0230 --0230 0431 --0431 1301 --1301 0010 -05-06 -0506 ---05-06 --5-6 5-6 05-6 05--06 --05--06
05-06- - -- --05""".split()

DURATION_SIGNS = ["", "+", "-"]
NO_DURATIONS = """P PT P1YT PT1 P1 1Y P1Y1 PY PTS P-1Y P+1Y --P1Y +-P1Y -P P1Y2 P1H PT1Y P1D1W P1W1M P1M1Y PT1S1M PT1M1H P1YP1M P1YT1HT1M T1H PTT1H
P1.5Y P1.5D P1,5W
P.5Y PT.5S PT1.S PT1,S PT1.5 PT1..5S PT1.5.5S PT1.1234567890S PT0.0000000000S PT1,12345678901234567890S P1Y2Y PT1H2H P1Y2Y1M PT1S1S PT1.5S1S PT1S1.5S
PT1.5H PT1,5M PT1.5H1M PT1.5M1S PT1H1.5M PT0.5H PT1.123456789H PT0.000000001M PT1.1234567890H PT1.5H1H P1Y1Y1Y P1D1D PT1M1M1S P\u00bdY P1Y\u00e9
P1W2W3D4D P1Y[UTC] P1YZ P4294967296Y1Y P4294967295M1M PT18446744073709551616S1S PT18446744073709551615S1S P18446744073709551615D1D PT1H1.5H PT1M1.5M PT1H1.5M
PT1H2H1.5M PT1.5H1.5H P1Y18446744073709551615D -P1Y18446744073709551615D P18446744073709551615DT1H PT18446744073709551615H18446744073709551614S
PT18446744073709551615.5S PT18446744073709551615.0S PT18446744073709551615,5M P18446744073709551615D0D PT1\u017f P\u0131Y""".split()
NO_DURATIONS += ["P 1Y", " P1Y", "P1Y ", "P1 Y", "P1Y\0", "\0P1Y"]


class Chance:
    """Numbers by a fixed rule (splitmix64), the same on every machine."""

    def __init__(self, seed):
        self.state = seed

    def below(self, n):
        self.state = (self.state + 0x9E3779B97F4A7C15) % 2**64
        z = self.state
        z = (z ^ z >> 30) * 0xBF58476D1CE4E5B9 % 2**64
        z = (z ^ z >> 27) * 0x94D049BB133111EB % 2**64
        return (z ^ z >> 31) % n

    def of(self, things):
        return things[self.below(len(things))]


# ---- whole texts of parts


def tails():
    """Every form of a zone and of annotations: by itself, and each of one beside a few of the other."""
    zones = ZONES + UNKNOWN_ZONES + COMPACT_ZONES + NO_ZONES
    notes = ANNOTATIONS + REFUSED_ANNOTATIONS + UNKNOWN_CALENDARS + SHORT_ANNOTATIONS + NO_ANNOTATIONS
    for zone in zones:
        for note in ("", "[u-ca=gregory]", "[foo=bar]"):
            yield zone + note
    for note in notes:
        for zone in ("", "[UTC]", "[!Foo/Bar]"):
            yield zone + note


def clocks():
    """Every form of a time and of an offset: by itself, and each of one beside a few of the other."""
    times = TIMES + LONG_FRACTIONS + COMPACT_TIMES + NO_TIMES
    offsets = OFFSETS + LONG_OFFSETS + COMPACT_OFFSETS + NO_OFFSETS
    for time in times:
        for offset in ("", "Z", "+05:30", "-05", "-0530"):
            yield time + offset
    for offset in offsets:
        for time in ("10:15", "10", "1015", "10:15:30.5", "101530", "23:59:60"):
            yield time + offset


def heads():
    """Every form of what stands before the brackets."""
    dates = DATES + FAR_DATES + COMPACT_DATES + NO_DATES
    every = list(clocks())
    yield from dates
    for separator in SEPARATORS + NO_SEPARATORS:
        for date in ("2024-05-06", "20240506"):
            for clock in ("10:15", "10", "101530", "10:15Z", "10:15:30.5+05:30"):
                yield date + separator + clock
    for date in dates:
        for clock in ("00:00", "00:00:00.000000001", "23:59:59.999999999", "00:00Z", "00:00:00.000000001Z", "12:00Z", "23:59:59.999999999Z", "10:15+05:30",
                      "00:00+23:59", "23:59-23:59", "00:00-00:01", "23:59:59.999999999+23:59:59.999999999"):
            yield date + "T" + clock
    for clock in every:
        yield "2024-05-06T" + clock
        yield "20240506t" + clock
        yield "2023-02-29 " + clock
        yield clock
        yield "T" + clock
        yield "t" + clock
    yield from YEAR_MONTHS + FAR_YEAR_MONTHS + COMPACT_YEAR_MONTHS + NO_YEAR_MONTHS
    yield from MONTH_DAYS + COMPACT_MONTH_DAYS + NO_MONTH_DAYS
    yield from ("", "T", "t", "Z", " ", "[", "]", "iso8601", "gregory", "ISO8601", "Hebrew", "islamic-civil", "foobar", "UTC", "+05:30", "u-ca")


CALENDARS = """buddhist chinese coptic dangi ethioaa ethiopic ethiopic-amete-alem gregory hebrew indian islamic islamic-civil islamic-rgsa islamic-tbla
islamic-umalqura islamicc iso8601 japanese persian roc""".split()


# `@` is NUL, or a letter beyond ASCII
WITH_NUL = """2024-05-06@10:15 20240506@10 2024-05-06@10:15Z[UTC][u-ca=gregory] 2024-05-06@10:15[a=b] @2024-05-06 2024-05-06@ 10:15@ 2024-05-06T10:15@Z gregory@
2024-05-06[UTC@] 2024-05-06[aa=@b] 2024-05-06[a@=bb] 2024-05-06t10:15@ @""".split()
WITH_LETTER = """2024-05-06[a@] 2024-05-06[@a] 2024-05-06[a@=bb] 2024-05-06[aa=@] 2024-05-06[aa=@b] 2024-05-06[aa=b@] 2024-05-06[aa=bb-@b] 2024-05-06@ @2024-05-06
2024-05-06T1@:15 10:15@[UTC] 10:15[aa=@] 2024-05-06[u-ca=@] 2024-05-06T10:15[u-ca=gregory][aa=@]""".split()


def singular():
    """What takes a certain date, name or byte: hours that summer time skips, every calendar, NUL, and bytes beyond ASCII where few are tested."""
    for date in ("2024-03-31", "2024-03-24", "1996-03-31", "2023-03-26", "2024-10-27"):
        for time in ("", "T01:59:59.999999999", "T02:00", "T02:30:15.5", "t02:59:59.999999999", " 03:00"):
            for offset in ("", "Z", "+01:00", "+02:00") if time else ("",):
                yield date + time + offset + "[Europe/Paris]"
    for calendar in CALENDARS:
        yield calendar
        yield calendar.upper()
        for head in ("2024-05-06", "2024-05-06T10:15", "2024-05-06T10:15Z", "10:15", "2024-05", "05-06"):
            yield f"{head}[u-ca={calendar}]"
            yield f"{head}[UTC][!u-ca={calendar.title()}]"
    for place in WITH_NUL:
        yield place.replace("@", "\0")
    for letter, place in itertools.product("\x80\xe9\xff\u0131\u017f\u2212\uff11\ufeff", WITH_LETTER):
        yield place.replace("@", letter)


def productions():
    """Every head with a few tails, every tail behind a few heads."""
    for head in heads():
        for tail in ("", "[UTC]", "[u-ca=iso8601]", "[UTC][u-ca=gregory]", "[Foo/Bar]", "[+05:30][!u-ca=iso8601]"):
            yield head + tail
    for tail in tails():
        for head in ("2024-05-06", "2024-05-06T10:15", "2024-05-06T10:15Z", "2024-05-06T10:15:30.5+05:30", "20240506T10", "10:15", "T10:15:30.5", "10:15Z",
                     "1015", "2024-05", "202405", "05-06", "--02-29", "0506", "+275760-09-14T10:15", "+275760-10", "2024-05-06T10:15:30.1234567890"):
            yield head + tail


def mixtures(chance, count):
    """Parts by chance, most of them good."""
    good = (DATES, SEPARATORS, TIMES, OFFSETS, ZONES, ANNOTATIONS)
    beside = (FAR_DATES + COMPACT_DATES + NO_DATES, NO_SEPARATORS, LONG_FRACTIONS + COMPACT_TIMES + NO_TIMES, LONG_OFFSETS + COMPACT_OFFSETS + NO_OFFSETS,
              UNKNOWN_ZONES + COMPACT_ZONES + NO_ZONES, REFUSED_ANNOTATIONS + UNKNOWN_CALENDARS + SHORT_ANNOTATIONS + NO_ANNOTATIONS)
    for _ in range(count):
        date, separator, time, offset, zone, notes = (chance.of(g) if chance.below(12) else chance.of(b) for g, b in zip(good, beside))
        kind = chance.below(8)
        if kind < 4:
            yield date + separator + time + offset + zone + notes
        elif kind == 4:
            yield date + zone + notes
        elif kind == 5:
            yield chance.of(["", "T", "t"]) + time + offset + zone + notes
        elif kind == 6:
            yield chance.of(YEAR_MONTHS + FAR_YEAR_MONTHS + COMPACT_YEAR_MONTHS + NO_YEAR_MONTHS) + zone + notes
        else:
            yield chance.of(MONTH_DAYS + COMPACT_MONTH_DAYS + NO_MONTH_DAYS) + zone + notes


def damaged(chance, text, bytes_at_hand):
    """A copy of the text with one to three places changed."""
    for _ in range(1 + (chance.below(4) == 0) + (chance.below(16) == 0)):
        at = chance.below(len(text) + 1)
        how = chance.below(7)
        byte = chance.of(bytes_at_hand)
        if how == 0:
            text = text[:at] + text[at + 1 :]
        elif how == 1:
            text = text[:at] + byte + text[at:]
        elif how < 4:
            text = text[:at] + byte + text[at + 1 :]
        elif how == 4:
            text = text[:at] + text[at : at + 2][::-1] + text[at + 2 :]
        elif how == 5:
            text = text[:at] + text[at : at + 1] * 2 + text[at + 1 :]
        else:
            other = chance.below(len(text) + 1)
            text = text[: min(at, other)] + text[max(at, other) :] if chance.below(3) == 0 else text[:at] + text[at : at + 3].swapcase() + text[at + 3 :]
    return text


def short(alphabet, least, most, before="", behind=""):
    """All texts over an alphabet, of a range of lengths, between two fixed pieces."""
    for length in range(least, most + 1):
        for letters in itertools.product(alphabet, repeat=length):
            yield before + "".join(letters) + behind


def short_texts():
    yield from short("0125-:TZ+[].", 0, 4)
    yield from short("0-:+", 5, 6)
    yield from short("aA1-=/.!_+][ ", 0, 4, "2024-05-06[", "]")
    yield from short("a-=/.!", 5, 5, "2024-05-06[", "]")
    yield from short("aA1-_=]", 0, 5, "2024-05-06[aa=", "]")
    yield from short("aA1-_[", 0, 4, "2024-05-06[", "=bb]")
    yield from short("aA1-+._/!", 0, 4, "2024-05-06[Z", "]")
    yield from short("u-ca=b!", 0, 3, "2024-05-06[u-ca", "]")
    yield from short(["[u-ca=iso8601]", "[!u-ca=iso8601]", "[u-ca=gregory]", "[foo=bar]", "[!foo=bar]", "[UTC]", "[a=b]", "[A!]"], 0, 4, "2024-05-06")
    yield from short(["[u-ca=iso8601]", "[!u-ca=iso8601]", "[u-ca=gregory]", "[!u-ca=gregory]", "[foo=bar]", "[UTC]"], 0, 3, "2024-05")
    yield from short(["[u-ca=iso8601]", "[!u-ca=iso8601]", "[u-ca=gregory]", "[!u-ca=gregory]", "[foo=bar]", "[UTC]"], 0, 3, "10:15")
    yield from short("05:+-Z.", 0, 4, "2024-05-06T10:15")


# what stands before and behind a field of two digits
FIELDS = [piece.split("@") for piece in """2024-@-06 2024-05-@ 2023-02-@ 2024-05-06T@:15 2024-05-06T10:@ 2024-05-06T10:15:@ 2024-05-06T10:15+@:30
2024-05-06T10:15+05:@ 2024-05-06T10:15-05:30:@ 2024-05-06T10:15[+@:30] 2024-05-06T10:15[-05:@] @:15 10:@ 10:15:@ 2024-@ @-06 05-@ --02-@ T@ T10@ T1015@
10:15+@ 1015-@ 101530-@ 10-@ 10+@ 101530+@""".split()]
YEARS = """0 1 4 99 100 400 1582 1899 1900 1969 1970 1972 2000 2023 2024 2100 9999 10000 99999 100000 271820 271821 271822 275759 275760 275761
999999""".split()
LIMITS = "+275760-09-12 +275760-09-13 +275760-09-14 -271821-04-18 -271821-04-19 -271821-04-20 -271821-04-21".split()
LIMIT_TIMES = ["", *"T00:00 T00:00:00.000000001 T12:00 T23:59:59.999999999 T23:59:60 T23:58:59.999999999".split()]
LIMIT_OFFSETS = ["", *"""Z +00:00 -00:00 +00:01 -00:01 +23:59 -23:59 +23:59:59.999999999 -23:59:59.999999999 +00:00:00.000000001
-00:00:00.000000001""".split()]
LIMIT_ZONES = ["", *"[UTC] [+23:59] [-23:59] [Etc/GMT+5] [Etc/GMT-14]".split()]
FRACTIONS = [piece.split("@") for piece in """2024-05-06T10:15:30.@ 2024-05-06T10:15:30,@Z 10:15:30.@ 2024-05-06T10:15:30+05:30:15.@ T10:15-00:00:00,@[UTC]
101530.@""".split()]
NAMES = [piece.split("@") for piece in "2024-05-06[@] 2024-05-06[a/@] 2024-05-06[@=bb] 2024-05-06[aa=@] 2024-05-06[u-ca=@] 10:15[@]".split()]
FILLED = [piece.split("@") for piece in """2024-05-06[@a@] 2024-05-06T10:15[UTC][aa=@b@] 2024-05-06T10:15:30.@0@ 10:15[@a@] 2024-05[@a@] 05-06[@a@]
2024-05-06T10:15Z[UTC][@k@=vv] 2024-05-06T10:15[UTC][a=@b@] 20240506[@a@] 2024-05-06T10:15Z[UTC]@[aa=bb]@""".split()]


def fields():
    """Every number of two digits in every field."""
    for n, (before, behind) in itertools.product(range(100), FIELDS):
        yield before + "%02d" % n + behind


def months_and_days():
    for month, day in itertools.product(range(14), range(33)):
        yield from (before + "%02d-%02d" % (month, day) for before in ("2023-", "2024-", "1900-", "--", ""))
        yield from (before + "%02d%02d" % (month, day) for before in ("2023", "--", "", "T"))
        yield "%02d-%02d:30" % (month, day)
        yield "%02d+%02d" % (month, day)


def compact_times():
    """Those that may be dates too."""
    for n, month in itertools.product(range(0, 2400, 7), (0, 1, 5, 12, 13, 30, 59)):
        yield from (form % (n, month) for form in ("%04d%02d", "%04d-%02d", "%04d-%02d30"))


def years():
    rests = "-01-01 -02-28 -02-29 -03-01 -12-31 0229 -02 -02-29T10:15 -01-01T00:00Z -12-31T23:59:59.999999999-23:59".split()
    for year, rest in itertools.product(YEARS, rests):
        yield from (sign + year.rjust(6, "0") + rest for sign in "+-")
        if len(year) <= 4:
            yield year.rjust(4, "0") + rest


def limits():
    """Dates at the limits of Temporal, with every kind of time, offset and zone."""
    for day, time, offset, zone in itertools.product(LIMITS, LIMIT_TIMES, LIMIT_OFFSETS, LIMIT_ZONES):
        yield day + (time and time + offset) + zone


def lengths():
    """Fractions and names of many lengths, and texts near 1,024 bytes."""
    many = [*range(1, 24), 63, 64, 65, 127, 128, 129, 254, 255, 256, 257, 258, 265, 266, 511, 512, 513, 900]
    for length, digit, (before, behind) in itertools.product(many, "059", FRACTIONS):
        yield before + digit * length + behind
    for length, (before, behind) in itertools.product((1, 2, 14, 15, 63, 64, 65, 255, 256, 257, 900), NAMES):
        yield before + "b" * length + behind
    for length, (before, fill, behind) in itertools.product(range(1020, 1030), FILLED):
        yield (before + fill * length)[: length - len(behind)] + behind


def numbers():
    yield from fields()
    yield from months_and_days()
    yield from compact_times()
    yield from years()
    yield from limits()
    yield from lengths()


# ---- durations


def duration_numbers():
    edges = [0, 1, 2**16, 10**19, 10**20 - 1, 10**20, 2**62, 2**128]
    edges += [2**bits + k for bits in (31, 32, 53, 63, 64) for k in (-2, -1, 0, 1)]
    edges += [2**53 // seconds + k for seconds in (86_400, 3600, 60) for k in (-1, 0, 1)]  # of a unit of so many seconds
    forms = """P%dY P%dM P%dW P%dD PT%dH PT%dM PT%dS PT%d.5S PT%d.999999999S P1Y%dD P%dDT1S PT%dH59M P%dWT1.5S P000%dY PT0000000000000000000000%dS""".split()
    for n, sign, form in itertools.product(sorted(set(edges)), DURATION_SIGNS, forms):
        yield sign + form % n
    for big, small in itertools.product((2**53 // 86400, 2**53 // 3600, 2**53 // 60, 2**53 - 1), (0, 1, 59, 60, 3600, 86399, 86400)):
        for form in ("P%dDT%dS", "PT%dH%dS", "PT%dM%dS", "PT%dH%d.999999999S", "P%dDT%dM", "P%dDT%dH"):
            yield form % (big, small)
    for length in (1, 3, 9, 10, 11, 18, 19, 20, 21, 255, 256, 257, 900):
        for digit in "019":
            yield "PT1." + digit * length + "S"
            yield "PT1," + digit * length + "H"
            yield "PT" + digit * length + "S"
            yield "P" + digit * length + "Y"
    for length in range(1020, 1030):
        yield "P" + "0" * (length - 3) + "1Y"
        yield "PT1." + "0" * (length - 5) + "S"


def duration_mixtures(chance, count):
    fractions = ["", "", "", ".5", ",5", ".123456789", ".000000001", ".999999999", ".000000000", ".1234567890"]
    amounts = ["0", "1", "2", "7", "12", "59", "60", "00", "007", "4294967295", "9007199254740991"]
    for _ in range(count):
        days = "".join(chance.of(amounts) + unit for unit in "YMWD" if chance.below(2))
        time = "".join(chance.of(amounts) + unit for unit in "HM" if chance.below(2))
        if chance.below(2):
            time += chance.of(amounts) + chance.of(fractions) + "S"
        text = chance.of(DURATION_SIGNS) + "P" + days + ("T" + time if time else "")
        yield text.lower() if chance.below(4) == 0 else text


def duration_texts(chance, count):
    yield from NO_DURATIONS
    yield from duration_numbers()
    yield from short("1.YMDTS", 0, 5, "P")
    yield from short("10,HMS", 0, 5, "PT")
    yield from short("12YMW", 0, 5, "-p")
    yield from short("P1Y+-", 0, 5)
    good = list(duration_mixtures(chance, count))
    yield from good
    for _ in range(count):
        yield damaged(chance, chance.of(good + NO_DURATIONS), "0159PTYMWDHSptymwdhs.,+- \u00e9")


# ---- all of them


def stamp_texts(chance, count):
    yield from productions()
    yield from singular()
    yield from short_texts()
    yield from numbers()
    good = list(mixtures(chance, count))
    yield from good
    for _ in range(2 * count):
        yield damaged(chance, chance.of(good), "0123569TtZz :.,+-[]!=/_aAuUcC\u00e9\u2212\uff11\0")


def texts(seed, count):
    """Pairs of the ops and the text that they are put to. No text of a kind comes twice."""
    chance = Chance(seed)
    for ops, kind in ((READERS, stamp_texts(chance, count)), (("dur",), duration_texts(chance, count))):
        seen = set()
        for text in kind:
            if text not in seen:
                seen.add(text)
                yield ops, text
    # each kind of text to the readers of the other
    yield from ((("dur",), text) for text in ("2024-05-06", "10:15", "2024-05", "05-06"))
    yield from ((READERS, text) for text in ("P1Y", "PT1S", "P", "-PT0.5S"))


def names_in(text):
    """What may be the name of a zone or of a calendar to an engine."""
    yield from (("zonename", name) for name in re.findall(r"\[!?([A-Za-z+-][A-Za-z0-9_+/:-]*)\]", text))
    yield from (("calname", name) for name in re.findall(r"u-ca=([A-Za-z][A-Za-z0-9-]*)\]", text))
    if re.fullmatch(r"[A-Za-z][A-Za-z0-9-]*", text):
        yield "calname", text


def questions(seed, count):
    """Pairs of an op and a text: the names first, then the texts, all ops of a text side by side."""
    every = list(texts(seed, count))
    yield from sorted({name for _, text in every for name in names_in(text)})
    yield from ((op, text) for ops, text in every for op in ops)


def main():
    """usage: texts.py SEED COUNT      prints the questions to the engines; COUNT is the number of texts by chance of each kind"""
    for op, text in questions(*map(int, sys.argv[1:3])):
        print(op, text.encode().hex() or "-")


if __name__ == "__main__":
    main()
