#!/usr/bin/env python3
"""Prints the places of a point of docs/DESIGN-PASS.md, one a line: file:line: what.

usage: tools/places.py POINT [COMMIT]      POINT is 1 to 8; without COMMIT the files as they lie in the checkout
       tools/places.py --counts [COMMIT]   how many places each point has, by what they are

The places are found by the form of the text alone, so a place that stays on purpose is found too: the page says which those are.
"""
import collections
import pathlib
import re
import subprocess
import sys

TOP = pathlib.Path(__file__).resolve().parent.parent
WORD = re.compile(r"\w+|[^\w\s]")
CLAUSE = re.compile(r"\s*(requires|ensures|decreases|ghost)\b")
KEYWORDS = set("as break const else enum false fn for if impl in let loop match mut pub ref return self Self struct true while".split())


def files(commit, ending):
    """The files crates/*/.. with that ending, in order, each with its text."""
    if commit is None:
        names = subprocess.run(["git", "ls-files", "-co", "--exclude-standard", "crates"], cwd=TOP, capture_output=True, text=True, check=True).stdout.split()
        return [(n, (TOP / n).read_text()) for n in sorted(set(names)) if ending.search(n) and (TOP / n).exists()]
    names = subprocess.run(["git", "ls-tree", "-r", "--name-only", commit, "crates"], cwd=TOP, capture_output=True, text=True, check=True).stdout.split()
    names = [n for n in sorted(names) if ending.search(n)]
    asked = "".join(f"{commit}:{n}\n" for n in names).encode()
    out = subprocess.run(["git", "cat-file", "--batch"], cwd=TOP, input=asked, capture_output=True, check=True).stdout
    found, at = [], 0
    for n in names:
        end = out.index(b"\n", at)
        size = int(out[at:end].split()[2])
        found.append((n, out[end + 1:end + 1 + size].decode()))
        at = end + 1 + size + 1
    return found


class Function:
    """A function: its file and line, its name, what is written before its contract, its clauses and its body."""

    def __init__(self, file, line, name, head, clauses, body):
        self.file, self.line, self.name, self.head, self.clauses, self.body = file, line, name, head, clauses, body
        inside = head[head.find("(") + 1:head.rfind(")")]
        self.params = [tuple(p.strip().split(": ", 1)) for p in re.split(r",(?![^<(\[]*[>)\]])", inside) if ": " in p and not p.strip().startswith("self")]
        given = re.search(r"\)\s*->\s*(.*?)\s*\{?\s*$", head, re.S)
        self.result = given[1] if given else ""


class Type:
    """A struct or an enum: its fields or variants, each as one line."""

    def __init__(self, file, line, kind, name, parts):
        self.file, self.line, self.kind, self.name, self.parts = file, line, kind, name, parts


def functions(file, text):
    """The functions of a file in rt fmt's layout that have a body of their own lines."""
    lines = text.split("\n")
    found = []
    for i, line in enumerate(lines):
        start = re.match(r'( *)(?:pub(?:\(crate\))? )?(?:final )?(?:const )?(?:extern "C" )?fn (\w+)', line)
        if not start or line.endswith(("{}", ";")):
            continue
        space, opens = start[1], i
        # the body opens at the end of a line that is no deeper than `fn` itself
        while opens < len(lines) and not re.match(rf"{space}(?:\S.*)?\{{$", lines[opens]) and not (opens > i and re.match(rf"{space}\S.*;$", lines[opens])):
            opens += 1
        if opens == len(lines) or lines[opens].endswith(";") or space + "}" not in lines[opens:]:
            continue
        closes = lines.index(space + "}", opens)
        head, clauses, at = [], [], i
        while at <= opens and not CLAUSE.match(lines[at]) and lines[at] != space + "{":
            head.append(lines[at].strip())
            at += 1
        for clause in lines[at:opens]:
            if CLAUSE.match(clause):
                clauses.append((at + 1, clause.strip()))
            elif clauses:
                clauses[-1] = (clauses[-1][0], clauses[-1][1] + " " + clause.strip())
            at += 1
        found.append(Function(file, i + 1, start[2], " ".join(head), clauses, lines[opens + 1:closes]))
    return found


def types(file, text):
    """The structs and enums of a file."""
    lines = text.split("\n")
    found = []
    for i, line in enumerate(lines):
        start = re.match(r"(?:pub(?:\(crate\))? )?(struct|enum) (\w+)", line)
        if not start or not line.endswith("{"):
            continue
        inside = []
        for part in lines[i + 1:lines.index("}", i)]:
            part = part.strip()
            if not part or part.startswith("//") or part.startswith("ghost"):
                continue
            if inside and (inside[-1].count("{") > inside[-1].count("}")):
                inside[-1] += " " + part
            else:
                inside.append(part)
        found.append(Type(file, i + 1, start[1], start[2], [p.rstrip(",") for p in inside]))
    return found


def code(text):
    """The lines of a file that are code, each with its number."""
    return [(i, line) for i, line in enumerate(text.split("\n"), 1) if not line.lstrip().startswith("//")]


def above(text, line):
    """The comment right above a line."""
    lines = text.split("\n")
    said, i = [], line - 2
    while i >= 0 and re.match(r"\s*(//|#\[)", lines[i]):
        said.insert(0, lines[i].strip().lstrip("/ "))
        i -= 1
    return " ".join(said)


def shape(words):
    """Tokens with each name as the place where it came first, and each number as `n`: what two twins have in common."""
    names, out = {}, []
    for word in words:
        if re.match(r"\d", word):
            out.append("n")
        elif re.match(r"[A-Za-z_]\w*$", word) and word not in KEYWORDS:
            out.append(names.setdefault(word, f"v{len(names)}"))
        else:
            out.append(word)
    return tuple(out)


def body_words(f):
    """A function as tokens, without its contract, its paths and its lifetimes."""
    text = f.head.replace("pub ", "").replace("(crate)", "") + "\n" + "\n".join(b for b in f.body if not b.lstrip().startswith("//"))
    text = re.sub(r"<'\w+>|'[a-z]\w* ", "", text)
    text = re.sub(r"b'.[^']?'|b\"[^\"]*\"", "0", text)
    text = re.sub(r",(\s*[)}\]])", r"\1", text)
    text = re.sub(r"\b(?:\w+::)+(?=[a-z_]\w*\()", "", text)
    return WORD.findall(text)


ABSENT = re.compile(r"^(Absent|Bad|Other|Unknown|Over|Refused|Malformed|None\w*|Missing)\b")
FLAG = re.compile(r"^(?:pub )?(ok|found|timed|seconds|has\w*|is_\w+|whole): bool$")
INTEGER = re.compile(r"^(u8|u16|u32|u64|usize)$")
# Numbers that never are a value of their function beside the values that it computes.
NONE_OF = re.compile(r"^(0|7|10|16|100|255|10000|1000000000|1_000_000_000|usize::MAX|1844\d*)$")
KIND = re.compile(r"^(kind|state|goal|from|tag|form|show|refusal|zulu|number|k): (u8|u16|u32)$|^slot: usize$")
SAID = re.compile(r"\b(0|7|10|16|100|255|10,000|1,000,000,000)\b( or (more|less))? (where|for any|for what|if|to stop)|\b(else|or) (0|16|100)\b|^0, or |Below \d+ where")
TESTED = re.compile(r"(?:<|==|!=) (100|255|1000000000)\b|year < 10000\b|\b(point|mark|sign|sep|lead|year|width|line|before) == 0\b|goal <= 6\b")


def results(f):
    """The expressions that a function may give back, those that stand alone on a line or after `return` or `=>`."""
    found = []
    for line in f.body:
        line = line.strip()
        given = re.match(r"return (.*);$", line) or re.match(r".*=> (.*?),$", line) or re.match(r"([^;{}]+)$", line)
        both = re.search(r"\{ (?!if)([^{}]+) \} else \{ ([^{}]+) \}", line)
        if both:
            found += [both[1].strip(), both[2].strip()]
        elif given and "=>" not in given[1]:
            found.append(given[1].strip())
    return found


def point1(sources):
    for file, text in sources:
        for t in types(file, text):
            if t.kind == "enum" and any(ABSENT.match(p) for p in t.parts):
                yield file, t.line, f"enum like Option or Result: {t.name}"
            if t.kind == "struct" and any(FLAG.match(p) for p in t.parts):
                yield file, t.line, f"flag with a value beside it: {t.name}"
            for p in t.parts:
                if t.kind == "enum" and "bool" in p and FLAG.search("".join(re.findall(r"\w+: bool", p)[:1])) and not ABSENT.match(p):
                    yield file, t.line, f"flag with a value beside it: {t.name}"
                    break
            for p in t.parts:
                if re.match(r"(?:pub )?(kind|state|goal|from): u\d+$", p) or re.search(r"\((u8)\)$", p) and re.match("Refused|From", p):
                    yield file, t.line, f"number for a kind, a state or a refusal: {t.name} ({p})"
                if re.search(r"\b(point|sep|lead|mark|sign|last): (u8|usize)\b", p) and SAID.search(above(text, t.line)):
                    yield file, t.line, f"number that stands for none: {t.name}"
        for f in functions(file, text):
            flag = [n for n, t in f.params if t == "bool" and re.match(r"(ok|has|timed|bad)$", n)]
            if flag and len(f.params) > 1:
                yield file, f.line, f"flag with a value beside it: fn {f.name} ({flag[0]})"
            numbers = [n for n, t in f.params if KIND.match(f"{n}: {t}")]
            if numbers:
                yield file, f.line, f"number for a kind, a state or a refusal: fn {f.name} ({', '.join(numbers)})"
            counted = any("Count (" in c or "Within" in c or "Put " in c for _, c in f.clauses)
            given = results(f)
            none = [g for g in given if NONE_OF.match(g)]
            computed = any(not re.match(r"[\d_]+$|\w+::MAX$", g) for g in given)
            if INTEGER.match(f.result) and not counted and (none and computed or SAID.search(above(text, f.line))):
                yield file, f.line, f"number that stands for none: fn {f.name}"
        for i, line in code(text):
            if TESTED.search(line) and not re.search(r"\b(requires|ensures)\b|%", line):
                yield file, i, "test of a number that stands for none: " + line.strip()
            if re.match(r"\s*(pub )?const (REFUSED|OURS|FOREIGN): usize =", line):
                yield file, i, "number for a kind, a state or a refusal: const " + re.search(r"[A-Z]+(?=:)", line)[0]
            if re.match(r"\s*(pub )?const [A-Z_]+: u(8|16|32) = (0x)?[0-9a-f]+;", line) and re.search(r"refusal|judge|test_writers|test_readers|AUTO|MINUTE_ONLY", file + line):
                yield file, i, "number for a kind, a state or a refusal: const " + re.search(r"[A-Z_]{1,}(?=:)", line)[0]


def point2(sources):
    groups = collections.defaultdict(list)
    for file, text in sources:
        for f in functions(file, text):
            words = body_words(f)
            if len(words) >= 20:
                groups[shape(words)].append((file, f.line, f"fn {f.name}"))
        for t in types(file, text):
            if len(t.parts) > 1:
                # the names of fields and variants stay, their types do not
                kept = tuple(re.sub(r"\([^)]*\)", "(T)", re.sub(r": [^,}]+", ": T", p)) for p in t.parts)
                if any("T" in p for p in kept):
                    groups[(t.kind, kept)].append((file, t.line, f"{t.kind} {t.name}"))
    for twins in groups.values():
        for file, line, what in twins if len(twins) > 1 else []:
            yield file, line, f"twin, {len(twins)} like {twins[0][0].split('/')[1]}'s {twins[0][2]}: {what}"


def point3(sources):
    for file, text in sources:
        for i, line in code(text):
            if re.search(r"\bwhile\b", line):
                yield file, i, "while: " + line.strip()
            if re.search(r"\bfor \w+ in [^.]*\.\.", line):
                yield file, i, "for over places: " + line.strip()


VARIANT = r"[A-Z]\w*(?:::[A-Z]\w*)?"
SIMPLE = re.compile(rf"^(true|false|-?[\d_]+|b'.'|{VARIANT}(\(({VARIANT}|\w+)\))?|[a-z]+)$")
LIBRARY = re.compile(
    r"^(same|wide|wide_\w+|one_if|is_negative|is_empty|lower_of|capital_of|is_iso_in_any_case|hex_digit|nibble|signed_(year|i\d+)|is_digit|is_lower"
    r"|is_letter|is_run_byte|is_plain|magnitude|place_of|left_of|one_more|plus_of|low)$"
)


def point4(sources):
    for file, text in sources:
        for f in functions(file, text):
            body = [b.strip() for b in f.body]
            arms = [b for b in body if "=>" in b]
            if body and body[0].startswith("match ") and body[-1] == "}":
                values = re.findall(r"=> (.*?),?$", "\n".join(body), re.M)
                if values and all(SIMPLE.match(v) for v in values) and len(values) == len(arms):
                    what = "test" if f.result == "bool" else "conversion"
                    yield file, f.line, f"{what} by a match: fn {f.name}"
            copies = [b for b in body if (m := re.match(r"(?:let )?(\w+)(?: =|:) (?:self|w|s)\.(\w+)[;,]$", b)) and m[1] == m[2]]
            if len(copies) > 1 and re.search(r"-> (Self|\w+)", f.head) and any(re.match(r"(Ok\()?[A-Z]\w* \{$|return [A-Z]\w* \{$", b) for b in body):
                yield file, f.line, f"copy of a record field by field: fn {f.name}"
            values = [b for b in body if not re.match(r"(\} else )?if .* \{$|\} else \{$|\}$", b)]
            if body and body[0].startswith("if ") and len(values) > 1 and all(re.match(rf"{VARIANT}(\(.*\))?$|b'.'$", v) for v in values):
                yield file, f.line, f"conversion by an if: fn {f.name}"
            if LIBRARY.match(f.name):
                yield file, f.line, f"what the library has: fn {f.name}"
        for i, line in code(text):
            if (m := re.match(r"\s*let (\w+) = \w+\.(\w+);$", line)) and m[1] == m[2]:
                yield file, i, f"field taken out by hand: {line.strip()}"
            if re.match(r"#\[derive\(", line) and "Copy" in line and "PartialEq" not in line:
                yield file, i, "no equality: " + line.strip()


def fact(clause):
    """The form of a fact: its definition, or a comparison with its numbers and names left out."""
    inside = re.sub(r"^[^{]*\{|\}[^}]*$", "", clause).strip()
    if m := re.match(r"\(?([a-z]\w*_ok|fields_ok|names_ok) .*≡ true", inside):
        return f"{m[1]} .. ≡ true"
    if m := re.match(r"\(?([A-Z]\w*) ", inside):
        return f"{m[1]} .."
    if re.match(r"\(?at \+ .*≤ length buf\.old", inside):
        return "at + .. ≤ length buf.old"
    return re.sub(r"\b[a-z]\w*(\.\w+)?\b", "x", inside)


def point5(sources):
    facts, runs = collections.defaultdict(list), collections.defaultdict(list)
    for file, text in sources:
        for f in functions(file, text):
            for line, clause in f.clauses:
                if clause.startswith("requires"):
                    facts[fact(clause)].append((file, line, f.name))
            params = [(n, re.sub(r"&'\w+ ", "&", t)) for n, t in f.params]
            for a, b in zip(params, params[1:]):
                runs[f"{a[0]}: {a[1]}, {b[0]}: {b[1]}"].append((file, f.line, f.name))
    for name, places in sorted(facts.items()):
        if len({p[2] + p[0] for p in places}) >= 3:
            for file, line, who in places:
                yield file, line, f"fact asked for, {name}: fn {who}"
    for name, places in sorted(runs.items()):
        if len(places) >= 3:
            for file, line, who in places:
                yield file, line, f"parameters together, {name}: fn {who}"


def point6(sources):
    for file, text in sources:
        for t in types(file, text):
            for p in t.parts:
                if re.search(r"\[\w+; \w+\]", p):
                    yield file, t.line, f"array in a record: {t.name} ({p})"
                if re.search(r"\b(len|size|used|left|kept|bytes|last|out|at|digits): usize", p):
                    yield file, t.line, f"length or place without its bytes: {t.name} ({p})"
        for i, line in code(text):
            if re.search(r"(const|type) .*\[\w+; \d+\]", line):
                yield file, i, "table: " + line.strip()
            if re.search(r"let mut \w+ = \[[^\]]*; [\w:]+\]", line):
                yield file, i, "local buffer: " + line.strip()


def point7(sources):
    for file, text in sources:
        for f in functions(file, text):
            arms = [b.strip() for b in f.body if re.search(r"=> .*\(|=> \w+\($|=> \{", b)]
            calls = [a for a in arms if re.search(r"=> \{?\s*(?:\w+::|\w+\.)*[a-z_]\w*\($|=> (?:\w+::|\w+\.)*[a-z_]\w*\(.*[t,)]", a)]
            if len(calls) >= 3:
                yield file, f.line, f"switch over calls: fn {f.name} ({len(calls)})"
            compared = [b for b in f.body if re.match(r"\s*if (kind|state|goal|from|tag) == ", b)]
            if len(compared) >= 2:
                yield file, f.line, f"switch by comparison: fn {f.name} ({len(compared)})"


def point8(proofs):
    answers = collections.defaultdict(list)
    for file, text in proofs:
        named = {"Answers.antt": "answers", "Invariants.antt": "invariants", "Proof.antt": "proof"}
        what = named.get(file.split("/")[-1], "lemmas") if file.count("/") > 3 else "lemmas"
        yield file, 1, f"{what} ({len(text.splitlines())} lines)"
        if what == "answers":
            # an answer is what stands after `=`, up to the next empty line
            for block in re.finditer(r"^pub (\S+) : goal\.\S+\n((?:.+\n?)*)", text, re.M):
                said = re.search(r"^\S+.*? = ?(.*(?:\n.*)*)", block[2], re.M)
                if said:
                    answers[" ".join(said[1].split())].append((file, text.count("\n", 0, block.start()) + 1))
    for said, places in answers.items():
        if len(places) >= 3:
            for file, i in places:
                yield file, i, f"answer that stands in {len(places)} places: {said[:80]}"


def places(point, commit):
    """The places of a point, in the order of the files."""
    if point == 8:
        return list(point8(files(commit, re.compile(r"/proofs/.*\.antt$"))))
    found = {1: point1, 2: point2, 3: point3, 4: point4, 5: point5, 6: point6, 7: point7}[point](files(commit, re.compile(r"/src/.*\.rt$")))
    return sorted(set(found))


def main():
    if len(sys.argv) not in (2, 3) or sys.argv[1] not in [*"12345678", "--counts"]:
        sys.exit(__doc__)
    commit = sys.argv[2] if len(sys.argv) == 3 else None
    if sys.argv[1] != "--counts":
        for file, line, what in places(int(sys.argv[1]), commit):
            print(f"{file}:{line}: {what}")
        return
    for point in range(1, 9):
        counts = collections.Counter(re.split(r"[:,(]| in \d", what)[0].strip() for _, _, what in places(point, commit))
        print(f"{point}: " + ", ".join(f"{what} {n}" for what, n in sorted(counts.items())))


main()
