#!/usr/bin/env python3
"""Lists the places of src/ that docs/DESIGN-PASS.md counts, point by point: count_forms.py [-v] [POINT..]

Run at the top of a checkout. Without -v it prints a count for each kind of place, with -v the places too.
What it finds goes by the text, so each list is read before it is counted as places to change.
"""
import collections
import difflib
import glob
import re
import sys

FILES = sorted(glob.glob("crates/*/src/**/*.rt", recursive=True))
TEXT = {path: open(path).read() for path in FILES}


def bare(text):
    """The text without comments and clauses."""
    text = re.sub(r"//[^\n]*", "", text)
    return re.sub(r"^ +(?:requires|ensures|ghost)\b.*?\}(?=\n *(?:requires|ensures|\{|\}|;))", "", text, flags=re.M | re.S)


def line_of(text, place):
    return text.count("\n", 0, place) + 1


def functions():
    """(path, line, name, parameters, clauses, body) of each function."""
    for path, text in TEXT.items():
        for m in re.finditer(r"^( *)(?:pub(?:\([a-z]+\))? )?fn (\w+)[^(]*\(", text, re.M):
            rest = text[m.start():]
            end = re.search(r"^%s\}" % m[1], rest, re.M)
            whole = rest[: end.end()] if end else rest
            open_ = re.search(r"^%s\{|\{$" % m[1], whole, re.M)
            head = whole[: open_.start()] if open_ else whole
            body = whole[open_.start():] if open_ else ""
            depth = 0
            for k, ch in enumerate(whole[m.end() - m.start() - 1:]):
                depth += ch == "("
                depth -= ch == ")"
                if depth == 0:
                    break
            parameters = whole[m.end() - m.start(): m.end() - m.start() - 1 + k]
            yield path, line_of(text, m.start()), m[2], " ".join(parameters.split()), head, body


FUNCTIONS = list(functions())


def grep(pattern, flags=re.M):
    for path, text in TEXT.items():
        for m in re.finditer(pattern, text, flags):
            yield f"{path}:{line_of(text, m.start())}: {' '.join(m[0].split())[:110]}"


def point1():
    """Own enums of the shape of Option or Result, a flag with a value beside it, numbers for kinds or refusals."""
    shaped, flags = [], []
    for path, text in TEXT.items():
        for m in re.finditer(r"^(?:pub )?enum (\w+) \{\n(.*?)^\}", text, re.M | re.S):
            cases = [c.strip().rstrip(",") for c in bare(m[2]).split("\n") if c.strip()]
            refused = any(re.match(r"(Refused|Passed|Over|Cut|Nowhere|Padding|None|Unknown|Bad)\b", c) for c in cases)
            if refused:
                shaped.append(f"{path}:{line_of(text, m.start())}: enum {m[1]} {{ {', '.join(cases)[:70]} }}")
        for m in re.finditer(r"^(?:pub )?struct (\w+)[^{;]*\{\n(.*?)^\}", text, re.M | re.S):
            fields = re.findall(r"^ +(?:pub )?(\w+): (.*),$", m[2], re.M)
            flag = [n for n, t in fields if n in ("verdict", "ok", "found", "small", "fit", "gone") or t == "Verdict"]
            if flag and len(fields) > 1:
                flags.append(f"{path}:{line_of(text, m.start())}: struct {m[1]}, flag {', '.join(flag)}")
    yield "enums with a case for refused, passed or none", shaped
    yield "structs with a flag beside a value", flags
    yield "functions that answer u8 as a code", [f"{p}:{n}: {f}" for p, n, f, a, h, b in FUNCTIONS if re.search(r"\) -> u8\s*$", h.split("\n    re")[0].split("\n    en")[0].strip())]
    yield "comparisons of a kind with a number", list(grep(r"^.*\b(?:kind|op|o) (?:==|!=|<) [0-9]\b.*$"))


def point2():
    """Twins: functions whose text differs little, of 6 lines or more."""
    bodies = []
    for path, n, name, a, head, body in FUNCTIONS:
        lines = [x.strip() for x in bare(body).split("\n") if x.strip()]
        if len(lines) >= 6:
            bodies.append((path, n, name, re.findall(r"\w+|\S", " ".join(lines))))
    twins = []
    for i, (p, n, f, t) in enumerate(bodies):
        for q, m, g, u in bodies[i + 1:]:
            if not 0.8 < len(t) / len(u) < 1.25:
                continue
            s = difflib.SequenceMatcher(None, t, u, autojunk=False)
            if s.real_quick_ratio() > 0.85 and s.quick_ratio() > 0.85 and s.ratio() > 0.85:
                twins.append(f"{p}:{n}: {f} and {q}:{m}: {g} ({s.ratio():.2f})")
    yield "pairs of functions alike in 85 of 100 tokens", twins


def point3():
    """Loops that count an index by hand."""
    counting, other = [], []
    for path, n, name, a, head, body in FUNCTIONS:
        for m in re.finditer(r"^( *)(?:'\w+: )?while (.*) \{\n(.*?)^\1\}", body, re.M | re.S):
            names = set(re.findall(r"[a-z_]\w*", m[2]))
            by_one = any(re.search(r"\b%s [+-]= 1;" % re.escape(x), m[3]) for x in names)
            where = f"{path}:{n + head.count(chr(10)) + body.count(chr(10), 0, m.start())}: {name}: while {m[2][:60]}"
            (counting if by_one else other).append(where)
    yield "while loops that move by one", counting
    yield "other while loops", other
    yield "for loops", list(grep(r"^ *(?:'\w+: )?for .* in .*\{$"))


def point4():
    """Equality, order, copying, conversion and printing by hand."""
    yield "functions named so", [f"{p}:{n}: {f}" for p, n, f, a, h, b in FUNCTIONS if re.match(r"(same|equal|less|smaller|larger|least|most|compare|order|both|at_most|held|clear|fill|copy|wide|narrow)(_\w+)?$", f)]
    yield "a minimum or maximum by an if", list(grep(r"if (\w[\w.]*) <=? (\w[\w.]*) \{\s*(?:return )?(?:\1|\2);?\s*\}\s*(?:else \{\s*)?(?:\1|\2)\b"))
    yield "a condition by an if", list(grep(r"^ *if [^\n{]* \{\s*(?:return )?(?:false|true);?\s*\} else \{[^{}]*\}|if [^\n{]* \{ [^{}]* \} else \{ (?:false|true) \}"))
    yield "functions that put a piece of text", [f"{p}:{n}: {f}" for p, n, f, a, h, b in FUNCTIONS if "out: &mut W" in a]


def point5():
    """Facts in the contracts of three or more functions, and parameters that travel together."""
    clauses = collections.defaultdict(list)
    for path, n, name, a, head, body in FUNCTIONS:
        for c in set(re.findall(r"requires (?:\w+ )?(\{.*?\})\n", head + "\n")):
            clauses[c].append(f"{path}:{n}: {name}")
    often = [f"{len(w)} times {c[:90]}" for c, w in sorted(clauses.items(), key=lambda x: -len(x[1])) if len(w) >= 3]
    yield "requires that stand in three or more functions", often
    yield "functions of six or more parameters", [f"{p}:{n}: {f} ({a.count(': ')})" for p, n, f, a, h, b in FUNCTIONS if a.count(": ") >= 6]


def point6():
    """Buffers with a length beside them, and parallel arrays."""
    found = []
    for path, text in TEXT.items():
        for m in re.finditer(r"^(?:pub )?struct (\w+)[^{;]*\{\n(.*?)^\}", text, re.M | re.S):
            arrays = re.findall(r"^ +(?:pub )?(\w+): \[", m[2], re.M)
            if arrays:
                found.append(f"{path}:{line_of(text, m.start())}: struct {m[1]}: {', '.join(arrays)}")
    yield "structs with arrays of a fixed length", found
    yield "functions with parallel slices of kinds and values", [f"{p}:{n}: {f}" for p, n, f, a, h, b in FUNCTIONS if "kinds: " in a and "values: " in a]
    yield "functions with a slice and its length or place beside it", [f"{p}:{n}: {f}" for p, n, f, a, h, b in FUNCTIONS if re.search(r"(\w+): &(?:mut )?\[\w+\], (?:len|n|count|p|at|from|top): (?:usize|u64)", a)]


def point7():
    """A switch on which step to run."""
    yield "functions that take a bool or a code of an operation", [f"{p}:{n}: {f}" for p, n, f, a, h, b in FUNCTIONS if re.search(r"\b\w+: bool\b|\bop: usize\b|\bphase: ", a)]
    yield "functions that take a closure", [f"{p}:{n}: {f}" for p, n, f, a, h, b in FUNCTIONS if re.search(r"\bFn(?:Mut|Once)?\(", h)]


def point8():
    """Proof files."""
    files = glob.glob("crates/*/proofs/**/*.antt", recursive=True)
    for name in ("Proof.antt", "Answers.antt", "Invariants.antt"):
        some = [f for f in files if f.endswith("/" + name)]
        yield f"files {name}, {sum(len(open(f).read().splitlines()) for f in some)} lines", some
    rest = [f for f in files if f.count("/") == 3]
    yield f"lemma files, {sum(len(open(f).read().splitlines()) for f in rest)} lines", rest


def main():
    verbose = "-v" in sys.argv
    wanted = [a for a in sys.argv[1:] if a != "-v"] or "12345678"
    for k in wanted:
        point = globals()["point" + k]
        print(f"{k}. {point.__doc__}")
        for what, places in point():
            places = list(places)
            print(f"   {len(places):4} {what}")
            if verbose:
                for place in places:
                    print(f"        {place}")


main()
