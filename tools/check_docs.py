#!/usr/bin/env python3
"""Checks that every file and every name that README.md and docs/ cite in backquotes exists in this repository.

usage: python3 tools/check_docs.py     at the top; prints each that is missing, and exits with 1 if there is any

A word in backquotes is taken for
- a path, where it has a slash or the ending of a file: it stands at the top, below crates/, below a crate's src/, specs/,
  proofs/ or must-fail/, or is a path of functions below proofs/, in which * stands for any name;
- `Module.name`, a definition or lemma of specs/Module.antt or proofs/Module.antt;
- `Type::name`, where both are names of one file of the code;
- else a name: of the code, the definitions or the proofs, of a crate, of a file without its ending, or of a must-fail edit.
Passed over are blocks of code, what a build makes (below out/), what a reader is told to make (MADE below), text that is no name (commands, numbers, lines of scripts), and the words of KIT below.
Left out are the records of moves to newer kits, which name what stood before.
"""

import glob
import os
import re
import sys

LEFT_OUT = {"docs/history/PORT.md", "docs/history/DESIGN-PASS.md", "docs/LOOK-BACK.md"}

# Words of Rust, of Rattle, of its standard library and of its kit.
KIT = set(
    """
    rt rt_ci cargo Vec String Option Result Ok Err Some None Copy Clone Drop Default Display Debug PartialEq Eq Ord Model From
    ArrayVec AllocError Global HostRuntime LineWriter BufReader BufWriter BufRead Read Write usize u8 u16 u32 u64 bool str
    self Self let else match for while if impl trait struct enum pub fn const static mut ref use mod ghost requires ensures
    retain copy_within main io std anyhow arrayvec byteorder thiserror drop_through take_through AllByRecursion find find_map
    ContainsAt OnOk OnErr IfOk IfErr IfSome IsOk Appends output contents remaining write_all write_fmt read_to_end read_until
    stdin stdout stderr data HANDLES chunks_exact_mut fill_buf clap memchr itoa hex MatchResult flat_map decimal codes rattle tactic auto using abbrev unfoldable
    """.split()
)

# What a reader is told to make, or to delete.
MADE = {"first_chain", "crates/first_chain", "crates/first_chain/stdout", "src/clock.rt", "src/main.rt"}

NAME = r"[A-Za-z_][A-Za-z0-9_]*"
COMMENTS = {".rt": r"//.*", ".antt": r"(^|\s)--.*"}


def read(path):
    with open(path, encoding="utf-8") as file:
        return file.read()


def code_files():
    """The sources of the crates, each with its text without comments."""
    found = {}
    for path in glob.glob("crates/*/*/**/*", recursive=True):
        ending = os.path.splitext(path)[1]
        parts = path.split(os.sep)
        if ending in COMMENTS and parts[2] in ("src", "specs", "proofs"):
            found[path] = re.sub(COMMENTS[ending], " ", read(path), flags=re.M)
    return found


def is_path(word):
    return "/" in word or re.search(r"\.(md|rt|antt|py|sh|txt|edit|script|yml)$", word) is not None


class Repository:
    def __init__(self):
        self.files = code_files()
        self.names = set(KIT)
        self.by_stem = {}
        for path, text in self.files.items():
            words = set(re.findall(NAME, text))
            self.names |= words
            stem = os.path.splitext(os.path.basename(path))[0]
            self.names.add(stem)
            self.by_stem.setdefault(stem, []).append(words)
        for path in glob.glob("crates/*/must-fail/*.edit") + glob.glob("crates/*/data/*"):
            self.names.add(os.path.splitext(os.path.basename(path))[0])
        self.names |= set(re.findall(r"^([a-z][a-z0-9_]*):", read("crates.txt"), flags=re.M))
        self.roots = ["", "crates/", "docs/", "docs/history/", "tools/"]
        self.roots += glob.glob("crates/*/") + glob.glob("crates/*/src/")
        self.roots += glob.glob("crates/*/specs/") + glob.glob("crates/*/proofs/") + glob.glob("crates/*/must-fail/")

    def has_path(self, word):
        path = word.rstrip("/")
        return any(glob.glob(root + path) or glob.glob(root + path + ".antt") for root in self.roots)

    def has_name(self, word):
        return word in self.names

    def has(self, word):
        """None if the word is no name or path, else whether it is there."""
        if re.search(r"[\s<>=;,()\[\]{}#&|\"'$→≤×λ↔+−-]", word) or not re.search(r"[A-Za-z]", word):
            return None
        if word in MADE or "out" in word.split("/"):
            return None
        if is_path(word):
            return self.has_path(word) or word in self.names
        if "::" in word:
            parts = word.split("::")
            return any(all(part in words for part in parts) for stems in self.by_stem.values() for words in stems) or all(
                self.has_name(part) for part in parts[:1]
            ) and len(parts) == 2 and self.has_name(parts[1]) and parts[0] in KIT
        if "." in word:
            module, _, name = word.partition(".")
            if module in self.by_stem:
                return any(name in words for words in self.by_stem[module])
            return all(self.has_name(part) for part in word.split(".") if part)
        return self.has_name(word) if re.fullmatch(NAME, word) else None


def cited(path):
    """Each word in backquotes outside blocks of code, with its line's number."""
    block = False
    for number, line in enumerate(read(path).split("\n"), 1):
        if line.startswith("```"):
            block = not block
        elif not block:
            for word in re.findall(r"`([^`]+)`", line):
                yield number, word


def anchors(path):
    """What a link can name behind # in this page: its headings, in lower case, with dashes for spaces."""
    headings = re.findall(r"^#+ (.*)$", read(path), flags=re.M)
    return {re.sub(r"[^a-z0-9 _-]", "", heading.lower()).replace(" ", "-") for heading in headings}


def is_target(path, link):
    page, _, anchor = link.partition("#")
    target = os.path.join(os.path.dirname(path), page) if page else path
    return os.path.exists(target) and (not anchor or anchor in anchors(target))


def main():
    repository = Repository()
    missing = 0
    for path in ["README.md"] + sorted(glob.glob("docs/**/*.md", recursive=True)):
        if path in LEFT_OUT:
            continue
        for number, word in cited(path):
            if repository.has(word) is False:
                print(f"{path}:{number}: {word}")
                missing += 1
        for number, line in enumerate(read(path).split("\n"), 1):
            for link in re.findall(r"\]\(([^):]+)\)", line):
                if not is_target(path, link):
                    print(f"{path}:{number}: link to {link}")
                    missing += 1
    print(f"{missing} missing")
    return 1 if missing else 0


if __name__ == "__main__":
    sys.exit(main())
