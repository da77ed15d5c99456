#!/usr/bin/env python3
"""Lists places of src/ that may be written in an older form than Rattle allows, point by point.

Usage: tools/places.py [FOLDER]   (a checkout; this one if none is given)

It finds candidates by their text; which of them are places, docs/DESIGN-PASS.md says.
"""

import collections
import pathlib
import re
import sys

ROOT = pathlib.Path(sys.argv[1] if len(sys.argv) > 1 else ".")

# One point's patterns: what is looked for, and the text that shows it (over a whole file, lines joined).
PATTERNS = {
    1: [
        ("a number made an enum by Option", r"fn new\(number: u\d+\) -> Option"),
        ("a Result passed on by match", r"Ok\((\w+)\) => Ok\(\1\)"),
        ("an Option passed on by match", r"Some\((\w+)\) => Ok\(\1\)"),
        ("None answered by a constant", r"None => (?:false|0|Err\([\w:]+\)),"),
        ("let-else that returns a fixed Err", r"let Some\(\w+\) = [^;{]*else \{\s*return Err\([\w:]+\);"),
        ("a flag that is set in a loop", r"let mut \w+ = (?:true|false);"),
        ("a flag with a value beside it", r"\n +pub \w+: bool,"),
        ("an own None, Some, Ok or Err", r"pub enum \w+ \{[^}]*\n    (?:None|Some|Ok|Err)(?:\(| =|,)"),
    ],
    3: [
        ("a loop that answers true or false", r"for [^{;]*\{\s*if [^{;]*\{\s*return (?:true|false);"),
        ("a loop over 0..", r"for \w+ in 0\.\.[^{]*\{"),
        ("a loop that counts beside", r"for \(\w+, \w+\) in [^{]*enumerate\(\)[^{]*\{"),
        ("a loop that fills a Vec", r"for [^{;]*\{\s*\w+\.push\("),
        ("a while over a slice", r"while let \["),
        ("a get that a match answers", r"match \w+\.get\("),
    ],
    4: [
        ("a number of an enum", r"fn number\(self\) -> u8"),
        ("an enum of a number", r"fn new\(number: u\d+\) -> Option"),
        ("a conversion as a function", r"fn (?:kind\(self\)|literal\(kind|add\(&mut self, atom)"),
        ("text put together by hand", r"(?:write!|println!)\([^;]*\"[^\"]*\{\w+\} \w+ \{\w+\}[^\"]*\""),
        ("a From by hand", r"impl(?:<[^>]*>)? From<"),
        ("a range asked by two comparisons", r"(?:1 <= (\w+) && \1 <=|(\w+) == 0 \|\| \2 >)"),
    ],
    6: [
        ("an array of a fixed size", r"(?<!vec!)\[(?!in heap)[\w:. {},()]+; (?:\d+|[A-Z_]+)(?: as usize)?\]"),
        ("a count beside a buffer", r"\n +(?:pub\(super\) |pub )?count: usize,"),
        ("an index computed", r"\[[^\]\n]*\* [^\]\n]*\+[^\]\n]*\]"),
        ("lists of the same length", r"pub takes: Vec<u8>,\s*pub gives: Vec<u8>"),
        ("a list told apart by cases", r"pub enum Layers"),
    ],
    7: [
        ("a table of functions", r"\[fn\(|: fn\("),
        ("a dyn value", r"\bdyn\b"),
    ],
}

FUNCTION = re.compile(r"fn (\w+)(?:<[^>(]*>)?\(")


def sources():
    for path in sorted(ROOT.glob("crates/*/src/*.rt")):
        yield path, path.read_text()


def functions(text):
    """Each function of a file: its name, its signature with the clauses, and its body."""
    for match in FUNCTION.finditer(text):
        depth, at = 0, match.end()
        start = text.find("\n    {\n", match.end())
        top = text.find("\n{\n", match.end())
        inline = text.find(" {\n", match.end())
        ends = [e for e in (start, top, inline) if e >= 0]
        if not ends or text.find(";\n", match.end(), min(ends)) >= 0 and "requires" not in text[match.end():min(ends)]:
            continue
        at = text.find("{\n", min(ends))
        for end in range(at, len(text)):
            depth += {"{": 1, "}": -1}.get(text[end], 0)
            if depth == 0:
                yield match.group(1), text[match.start():at], text[at:end + 1]
                break


def where(text, at):
    return text.count("\n", 0, at) + 1


def patterns(point):
    for path, text in sources():
        for what, pattern in PATTERNS[point]:
            for match in re.finditer(pattern, text):
                line = where(text, match.start() + len(match.group(0)) - len(match.group(0).lstrip()))
                yield what, f"{path.relative_to(ROOT)}:{line}"


def twins():
    """Functions whose bodies are the same but for names, and files that are nearly the same."""
    bodies = collections.defaultdict(list)
    for path, text in sources():
        for name, _, body in functions(text):
            plain = re.sub(r"\s+", " ", re.sub(r"//[^\n]*", "", body))
            plain = re.sub(r"[A-Za-z_][\w:]*|\d+", "x", plain)
            if len(plain) > 24:
                bodies[plain].append(f"{path.relative_to(ROOT)}:{name}")
    for group in bodies.values():
        if len(group) > 1:
            yield "bodies the same but for names", ", ".join(group)
    lines = {path: set(line.strip() for line in text.splitlines() if len(line.strip()) > 20) for path, text in sources()}
    paths = list(lines)
    for i, a in enumerate(paths):
        for b in paths[i + 1:]:
            common = len(lines[a] & lines[b])
            if common > 12 and common > 0.6 * min(len(lines[a]), len(lines[b])):
                yield "files nearly the same", f"{a.relative_to(ROOT)}, {b.relative_to(ROOT)}"


def repeated():
    """Facts that three contracts require, and parameters that three functions take together."""
    facts, groups = collections.defaultdict(set), collections.defaultdict(set)
    for path, text in sources():
        for name, head, _ in functions(text):
            place = f"{path.relative_to(ROOT)}:{name}"
            for fact in re.findall(r"requires(?: \w+)? \{ (.*?) \}\n", head):
                fact = re.sub(r"\b(?:self|kind|model|below|rule|row)\.(?:old|now)\b|\b(?:self|kind|model|below)\b", "it", fact)
                facts[(path.parts[-3], fact)].add(place)
            params = re.findall(r"(\w+): ([^,()]+?)(?=,|\))", head.split(")")[0] + ")")
            params = [f"{n}: {t.strip()}" for n, t in params if t.strip() not in ("Global", "&HostRuntime")]
            for i, a in enumerate(params):
                for b in params[i + 1:]:
                    groups[(a, b)].add(place)
    for (_, fact), places in facts.items():
        if len(places) > 2:
            yield f"required by {len(places)}: {fact}", ", ".join(sorted(places))
    for (a, b), places in groups.items():
        if len(places) > 2:
            yield f"taken together by {len(places)}: {a}, {b}", ", ".join(sorted(places))


def main():
    found = {point: list(patterns(point)) for point in PATTERNS}
    found[2] = list(twins())
    found[5] = list(repeated())
    for point in sorted(found):
        print(f"point {point}: {len(found[point])}")
        for what, place in sorted(found[point]):
            print(f"  {what}: {place}")


main()
