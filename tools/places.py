#!/usr/bin/env python3
"""Counts the places in crates/*/src that docs/DESIGN-PASS.md speaks of, by point. With a point's number as argument it lists them."""
import re
import sys
from glob import glob
from collections import defaultdict

FN = re.compile(r"^\s*(?:pub )?(?:const )?(?:extern \"C\" )?fn (\w+)")
# What each point looks for in a line by itself: a pattern, and what is said of the place before the line.
IN_A_LINE = {
    1: [
        (r"\s*(pub )?const [A-Z0-9_]+: (u8|u32|i32)\b.* = (0x)?[0-9]+;", "a number with a name: "),
        (r".*if .*\.?number (!=|==) (number::)?PASSED", "a number asked for a refusal: "),
        (r".*if .*\b(count|value|found|end|wish|phase|access|form)\b *(==|!=) *(0|[A-Za-z:]*[A-Z_]{4,})", "a number asked for a kind: "),
        (r"\s*(To\(u32\)|Nothing|Neither|No\(u32\)),", "a case of Option or Result: "),
        (r"\s*pub (whole|answered|counted|refused|failed|named): bool,", "a flag beside values: "),
    ],
    3: [(r"\s*(while|loop)\b", "")],
    4: [
        (r"\s*let mut (\w) = \w+;$", "copied and assigned: "),
        (r"\s*(\w+): \1,$", "a field named twice: "),
    ],
}
WRITTEN_BY_HAND = r"(if \w+ \{ return true; \} )+\w+|\w+ == \w+|let mut i = 0; while .*\[.*\] = .*\[.*\]; i \+= 1; \}"


def sources():
    for path in sorted(glob("crates/*/src/**/*.rt", recursive=True)):
        with open(path) as file:
            yield path, file.read().split("\n")


def functions(path, lines):
    """Name, line, parameters and body of each function."""
    i = 0
    while i < len(lines):
        m = FN.match(lines[i])
        if not m:
            i += 1
            continue
        head, depth, j = "", 0, i
        while True:
            head += lines[j] + "\n"
            depth += lines[j].count("(") - lines[j].count(")")
            if depth == 0 and "(" in head:
                break
            j += 1
        inside = head[head.index("(") + 1:]
        params = re.findall(r"(\w+): ", inside.split(") ->")[0])
        k = j
        while k < len(lines) and not (lines[k].rstrip().endswith("{") and not re.match(r"\s*(requires|ensures|×)", lines[k])):
            if lines[k].rstrip().endswith(";"):
                break
            k += 1
        indent = len(lines[i]) - len(lines[i].lstrip())
        e = k + 1
        while e < len(lines) and lines[e] != " " * indent + "}":
            e += 1
        yield m.group(1), i + 1, params, lines[k + 1:e]
        i = max(j + 1, i + 1)


def in_a_line(point, lines):
    for n, line in enumerate(lines, 1):
        for pattern, said in IN_A_LINE.get(point, []):
            if re.match(pattern, line):
                yield n, said + line.strip()


def by_hand(path, lines):
    for name, n, params, body in functions(path, lines):
        if re.fullmatch(WRITTEN_BY_HAND, " ".join(x.strip() for x in body)):
            yield n, "written by hand: fn " + name


def many_parameters(path, lines):
    for name, n, params, body in functions(path, lines):
        if len(params) >= 6:
            yield n, f"fn {name} has {len(params)} parameters"


def parallel_arrays(path, lines):
    for name, n, params, body in functions(path, lines):
        if "out" in params and "n" in params:
            yield n, f"fn {name}: a buffer and its length"
        elif {"words", "ends"} <= set(params):
            yield n, f"fn {name}: parallel arrays"
        elif {"words", "frames"} <= set(params):
            yield n, f"fn {name}: parallel arrays"


def ladders(path, lines):
    for name, n, params, body in functions(path, lines):
        tests = [x for x in body if re.match(r"\s*if [\w.]+ (==|<=|<) [\w:]*[A-Z_]{2,}\w*( \{)?$", x)]
        if len(tests) >= 2:
            yield n, f"fn {name}: {len(tests)} tests on which step to take"


def twins():
    shapes = defaultdict(list)
    for path, lines in sources():
        for name, n, params, body in functions(path, lines):
            text = " ".join(x.strip() for x in body if not x.strip().startswith("//"))
            if len(text) < 30:
                continue
            shape = re.sub(r'b?"(\\.|[^"\\])*"', "S", text)
            shape = re.sub(r"\b(0x)?[0-9][0-9a-f_]*\b", "N", shape)
            shape = re.sub(r"\b\w+::", "", shape)
            shape = re.sub(r"\b[A-Z][A-Z0-9_]+\b", "C", shape)
            shape = re.sub(r"\b[a-z]\w*\(", "f(", shape)
            shapes[shape].append((path, n, name))
    for same in shapes.values():
        if len(same) > 1:
            for place in same:
                yield place


def proofs():
    for path in sorted(glob("crates/*/proofs/**/Proof.antt", recursive=True)):
        yield path, 1, "a whole proof"
    for path in sorted(glob("crates/*/proofs/**/Answers.antt", recursive=True)):
        with open(path) as file:
            for n, line in enumerate(file, 1):
                if re.search(r"= search rules$", line.rstrip()):
                    yield path, n, "an answer that the check looks for by itself"


def main():
    by_function = {4: by_hand, 5: many_parameters, 6: parallel_arrays, 7: ladders}
    found = {p: [] for p in range(1, 9)}
    for path, lines in sources():
        for p in found:
            found[p] += [(path, n, said) for n, said in in_a_line(p, lines)]
        for p, search in by_function.items():
            found[p] += [(path, n, said) for n, said in search(path, lines)]
    found[2] = list(twins())
    found[8] = list(proofs())
    if len(sys.argv) > 1:
        for path, n, said in found[int(sys.argv[1])]:
            print(f"{path}:{n}: {said}")
        return
    for p in range(1, 9):
        print(f"point {p}: {len(found[p])}")


main()
