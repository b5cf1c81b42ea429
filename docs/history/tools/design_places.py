#!/usr/bin/env python3
"""Lists, for each point of docs/history/DESIGN-PASS.md, the lines of src/ at which that point may apply.

    python3 docs/history/tools/design_places.py [COMMIT]

Without a commit it reads the files as they stand. A line that is listed is a place to look at; docs/history/DESIGN-PASS.md says
what became of each.
"""
import re
import subprocess
import sys

WIDTHS = r"\b(u8|u16|u32|u64|usize)\b"


def git(*words):
    return subprocess.run(["git", *words], check=True, capture_output=True, text=True).stdout


def sources(commit):
    names = git("ls-tree", "-r", "--name-only", commit).split() if commit else git("ls-files").split()
    for name in names:
        if re.fullmatch(r"crates/\w+/src/.*\.rt", name):
            text = git("show", f"{commit}:{name}") if commit else open(name).read()
            yield name.removeprefix("crates/").replace("/src/", "/"), text


def without_comments(text):
    return re.sub(r"//[^\n]*", "", text)


def functions(text):
    """Each function: its line, name, parameters, result, clauses and body."""
    for start in re.finditer(r"\bfn (\w+)[^(]*?(?:<[^{;]*?>)?\(", text):
        depth, at = 1, start.end()
        while depth:
            depth += {"(": 1, ")": -1}.get(text[at], 0)
            at += 1
        parameters = text[start.end():at - 1]
        head = at
        while head < len(text) and text[head] != ";":
            if text[head] == "{" and not re.search(r"(requires|ensures)( \w+)? $", text[at:head]):
                break
            if text[head] == "{":
                depth = 1
                while depth:
                    head += 1
                    depth += {"{": 1, "}": -1}.get(text[head], 0)
            head += 1
        clauses, end = text[at:head], head
        if head < len(text) and text[head] == "{":
            depth = 1
            while depth:
                end += 1
                depth += {"{": 1, "}": -1}.get(text[end], 0)
        line = text[:start.start()].count("\n") + 1
        yield line, start.group(1), parameters, clauses, text[head:end + 1]


def by_lines(pattern):
    def look(files):
        for name, text in files:
            for number, line in enumerate(without_comments(text).split("\n"), 1):
                if re.search(pattern, line):
                    yield f"{name}:{number}: {line.strip()}"
    return look


def flags(files):
    """Functions that change something and answer only whether they did."""
    for name, text in files:
        for line, function, parameters, clauses, _ in functions(text):
            if "&mut" in parameters and re.match(r"\s*-> bool", clauses):
                yield f"{name}:{line}: fn {function} -> bool"


def number_tables(files):
    """Functions that give a number for each variant."""
    for name, text in files:
        for line, function, _, _, body in functions(text):
            if len(re.findall(r"\w+::\w+ => \d+,", body)) > 1:
                yield f"{name}:{line}: fn {function} -> a number for each variant"


def twins(files):
    """Functions whose parameters and bodies are the same but for types, numbers and constants."""
    alike = {}
    for name, text in files:
        for line, function, parameters, _, body in functions(without_comments(text)):
            if not body.startswith("{"):
                continue
            shape = re.sub(WIDTHS, "T", parameters + body)
            shape = re.sub(r"\b[A-Z][A-Z_]+\b|\b\d[\d_]*\b", "N", shape)
            shape = re.sub(r"(\w+\[\w+( \+ N)?\],?\s*)+", "M", shape)
            shape = re.sub(r"\s+", "", shape)
            alike.setdefault(shape, []).append(f"{name}:{line}: fn {function}")
    for group in alike.values():
        if len(group) > 1:
            yield "; ".join(group)


def together(files):
    """Parameters that three or more functions of a crate take side by side."""
    pairs = {}
    for name, text in files:
        for line, function, parameters, _, _ in functions(without_comments(text)):
            words = [" ".join(p.split()) for p in re.split(r",(?![^<(\[]*[>)\]])", parameters) if ":" in p]
            for one, other in zip(words, words[1:]):
                pairs.setdefault((name.split("/")[0], one, other), []).append(f"{name.split('/')[1]} {function}")
    for (crate, one, other), where in pairs.items():
        if len(where) > 2:
            yield f"{crate}: {one}, {other}: {'; '.join(where)}"


def repeated_facts(files):
    """Facts, up to the name of what they speak of, that stand in the contracts of three or more functions of a crate."""
    facts = {}
    for name, text in files:
        for line, function, _, clauses, _ in functions(text):
            for clause in re.findall(r"(?:requires|ensures)(?: \w+)? \{(.*)\}\s*$", clauses, re.M):
                facts.setdefault((name.split("/")[0], " ".join(clause.split())), []).append(f"{name.split('/')[1]} {function}")
    for (crate, fact), where in facts.items():
        if len(where) > 2:
            yield f"{crate}: {fact}: {'; '.join(where)}"


def lengths_beside(files):
    """Structs that have a count, and arrays that are made to be filled."""
    for name, text in files:
        for found in re.finditer(r"struct (\w+)[^{;]*\{([^}]*)\}", without_comments(text)):
            fields = found.group(2)
            if re.search(r": usize", fields):
                yield f"{name}:{text[:found.start()].count(chr(10)) + 1}: struct {found.group(1)} has a count"
        for found in re.finditer(r"= \[\w+; \w+( as usize)?\];", text):
            if name.endswith("tests.rt"):
                continue
            yield f"{name}:{text[:found.start()].count(chr(10)) + 1}: {found.group(0)[2:]}"


def one_after_another(*looks):
    def look(files):
        for each in looks:
            yield from each(files)
    return look


POINTS = [
    ("1. enums, flags and numbers in place of Option, Result and enums", one_after_another(
        by_lines(r"^\s*(pub(\(crate\))? )?enum \w+"), flags, number_tables,
        by_lines(r"const \w+: u8 = 255|room\w*\([^)]*\) (==|>) 0"))),
    ("2. twins", twins),
    ("3. loops that count by hand", by_lines(r"\bwhile\b|\bfor \w+ in \(?[\w.()]*\.\.|\.enumerate\(\)|^\s*(let )?\w+ \+= ")),
    ("4. equality, order, copying, conversion and printing by hand", by_lines(
        r"^impl.*\b(PartialEq|Eq|PartialOrd|Ord|Clone|Copy|Debug|Display|Default|From|TryFrom)\b.* for |\bas (u8|u16|u32|u64|usize)\b|\bfn (show|put_u|u\d+_at)\w*|from_be_bytes|to_be_bytes|push_str")),
    ("5. facts and parameters that go together", one_after_another(together, repeated_facts)),
    ("6. buffers with a length beside, parallel arrays, arenas", lengths_beside),
    ("7. switches on a step, tables of functions", by_lines(r"^\s*\w+Call::\w+.*=>|\bfn\(|dyn ")),
]


def main():
    commit = sys.argv[1] if len(sys.argv) > 1 else None
    files = list(sources(commit))
    for title, look in POINTS:
        found = list(look(files))
        print(f"{title}: {len(found)}")
        for line in found:
            print(f"    {line}")


main()
