#!/usr/bin/env python3
"""Looks up what the documents name: files, folders, pages and their headings, crates, functions, clauses, definitions, and every other
identifier in backquotes.

Usage: bench/claims.py

Prints what isn't there, a line for each, and ends with status 1 where something isn't. That a claim says what its clause says it can't
know. acceptance/run.sh runs it.

What is looked up, in README.md, docs/ and the READMEs of folders:

- a path below a folder of the repository, in backquotes or in a block of commands; a file's bare name stands in the folder of the path
  before it on the line, or anywhere where there is none;
- a link, and the heading that stands behind it as `[page](page.md), "Heading"`;
- `crate::function`, and `name` of `crate`; `Definition` in `crates/..` or followed by (`crates/..`);
- in the tables of docs/PROVED.md each clause of the function that its row names;
- in the tables of docs/ARCHITECTURE.md whose first column is called Crate each crate of crates.txt, and no other;
- any other identifier with an underscore or in mixed case: it occurs in some file of the repository.
"""

import pathlib
import re
import sys

TOP = pathlib.Path(__file__).resolve().parent.parent
ROOTS = "docs|crates|acceptance|bench|share|install|examples|cells"
PAGES = [TOP / "README.md", *sorted((TOP / "docs").rglob("*.md")), *sorted(TOP.glob("cells/*.md")), *sorted(TOP.glob("examples/*/*.md")),
         *sorted(TOP.glob("acceptance/*/*.md"))]
CODE = (".rt", ".antt", ".py", ".sh", ".txt", ".vbe", ".fsm", ".v", ".vhd", ".edit", ".toml", "")

CLAUSES = re.compile(r"((?:`\w+`(?:, )?)+) of |the clauses? of ")
FUNCTION = re.compile(r"`(\w+)::(\w+)(?:::(\w+))?`")
DEFINED = re.compile(r"((?:`\w+`(?:, | and )?)+),? (?:in |\()`(crates/\w+/specs/\w+\.antt)`")
OF_CRATE = re.compile(r"((?:`\w+`(?:, | and |, and )?)+) of (?:the crate )?`(\w+)`(?!:)")
LINK = re.compile(r"\]\(([^)\s]+?)(?:#[^)]*)?\)(?:, \"([^\"]+)\")?")
QUOTED = re.compile(r"`([^`\n]+)`")
PATH = re.compile(rf"(?<![\w./-])(?:{ROOTS})/[\w./*-]+")
RUN = re.compile(rf"^\s*(\$|build/|python3|bash|\./|(?:{ROOTS})/)")
BARE = re.compile(r"[\w-]+\.(?:antt|rt|py|sh|md)")
WORD = re.compile(r"[A-Za-z]\w*")
# words in which a capital stands for a pin or a number, and examples of names
STANDS_FOR = re.compile(r"_[A-Z](_|$)|^[a-z][A-Z]$|^(tphl_a_b_q|b_q)$")


def names(text):
    return re.findall(r"`(\w+)`", text)


def is_open(path):
    """Some names in capitals, as crates/NAME, stand for any; what is built isn't kept."""
    return re.search(r"\b(NAME|TOOL|CELL|FOLDER|FUNCTION|METHOD|MODULE|TYPE|WHAT_IS_WRONG)\b|/out\b|\.\.", path)


class Tree:
    """The files of the repository, and the words that occur in them."""

    def __init__(self):
        self.crates = {}
        for line in (TOP / "crates.txt").read_text().splitlines():
            if line and not line.startswith("#"):
                crate = line.split(":")[0].split()[0]
                self.crates[crate] = ""
        self.files, self.words, self.texts = set(), set(), {}
        for root in ROOTS.split("|"):
            for path in (TOP / root).rglob("*"):
                inside = path.relative_to(TOP).parts
                if "out" in inside or "__pycache__" in inside or not path.is_file():
                    continue
                self.files.add(path.name)
                if path.suffix in CODE and "data" not in inside and root != "docs" and "large" not in inside:
                    self.read(path, inside)
        for path in (TOP / ".ci/run", TOP / "build.sh", TOP / "crates.txt"):
            self.files.add(path.name)
            self.words.update(WORD.findall(path.read_text()))

    def read(self, path, inside):
        text = path.read_text(errors="replace")
        self.words.update(WORD.findall(text))
        self.words.add(path.stem)
        if inside[0] == "crates" and inside[2] in ("src", "specs"):
            self.texts[path] = text
            self.crates[inside[1]] = self.crates.get(inside[1], "") + text

    def clauses(self, crate, function):
        """The names of a function's clauses, an empty one for one without, or None where there is no such function."""
        found = None
        for place in re.finditer(rf"\bfn {function}\b[<(]", self.crates[crate]):
            text = self.crates[crate]
            end = re.compile(r"^\s*\{", re.M).search(text, place.start())
            found = (found or []) + re.findall(r"ensures (\w*) ?\{", text[place.start() : end.start() if end else len(text)])
        return found

    def has_function(self, crate, words):
        """Whether the crate has this function, or this type with this method."""
        *_, function = words
        text = self.crates[crate]
        return re.search(rf"\b(?:fn|struct|enum|trait|const|type) {function}\b|\bmod {function};", text)

    def is_defined(self, name, path):
        text = self.texts.get(TOP / path, "")
        return re.search(rf"\b(record|data) {name}\b|^(abbrev |unfoldable |pub )*{name} :", text, re.M)


def claimed(tree, cell):
    """What is wrong with the clauses that a cell of a table of docs/PROVED.md names."""
    for part in cell.split(";"):
        head, functions = CLAUSES.search(part), FUNCTION.findall(part)
        wanted = names(head.group(1)) if head and head.group(1) else [""]
        if not functions:
            yield f"no function: {part.strip()}"
        for crate, *path in functions:
            function = path[1] or path[0]
            there = tree.clauses(crate, function) if crate in tree.crates else None
            if there is None:
                yield f"no function {crate}::{function}"
            else:
                yield from (f"no clause {name or 'without a name'} of {crate}::{function}" for name in wanted if name not in there)


def rows(page):
    """The cells of each row of its tables."""
    for line in page.read_text().splitlines():
        if line.startswith("| "):
            yield [cell.strip() for cell in re.split(r"(?<!\\)\|", line.strip("|"))]


def missing_paths(tree, line):
    """Paths and bare names of files that aren't there. A bare name stands beside the path before it."""
    last = None
    for quoted in QUOTED.findall(line):
        paths = PATH.findall(quoted)
        for path in paths:
            whole = path.rstrip("/.")
            if is_open(quoted):
                continue
            if not (list(TOP.glob(whole)) if "*" in whole else (TOP / whole).exists()):
                yield f"no file {path}"
            last = (TOP / whole).parent
        if not paths and BARE.fullmatch(quoted) and not is_open(quoted):
            beside = last and last.exists() and (last / quoted).exists()
            if not beside and (quoted not in tree.files or quoted.endswith(".antt") and last):
                yield f"no file {quoted}" + (f" in {last.relative_to(TOP)}" if last else "")


def missing_pages(page, text):
    """Links to pages that aren't there, and headings that a page lacks."""
    for link, heading in LINK.findall(text):
        if "://" in link:
            continue
        path = page.parent / link
        if not path.exists():
            yield f"no page {link}"
        elif heading and path.suffix == ".md" and not re.search(rf"^#+ {re.escape(heading)}$", path.read_text(), re.M):
            yield f"no heading \"{heading}\" in {link}"


def missing_names(tree, line):
    """Functions of crates, definitions in files, and other identifiers that are nowhere."""
    for crate, *path in FUNCTION.findall(line):
        if crate in tree.crates and not tree.has_function(crate, [word for word in path if word]):
            yield f"no function {'::'.join([crate, *filter(None, path)])}"
        elif crate not in tree.crates and crate not in tree.words:
            yield f"no crate {crate}"
    for listed, path in DEFINED.findall(line):
        yield from (f"no definition {name} in {path}" for name in names(listed) if not tree.is_defined(name, path))
    for listed, crate in OF_CRATE.findall(line):
        if crate in tree.crates:
            wanted = [name for name in names(listed) if name not in tree.crates]
            yield from (f"no {name} in {crate}" for name in wanted if not re.search(rf"\b{name}\b", tree.crates[crate]))
    for quoted in QUOTED.findall(line):
        for word in re.findall(r"(?<![\w./<-])[A-Za-z]\w*(?![\w.-])", quoted if re.fullmatch(r"[\w:, ()]+", quoted) else ""):
            if ("_" in word or re.search(r"[a-z][A-Z]", word)) and word not in tree.words and not STANDS_FOR.search(word):
                yield f"no {word}"


def commands(text):
    """The lines of blocks of commands."""
    return [line for block in re.findall(r"^```\n(.*?)^```", text, re.M | re.S) for line in block.splitlines()]


def missing(tree, page):
    """What a page names and isn't there."""
    text = page.read_text()
    prose = re.sub(r"^```.*?^```", "", text, flags=re.M | re.S)
    for line in prose.splitlines():
        yield from missing_paths(tree, line)
        yield from missing_names(tree, line)
    yield from missing_pages(page, prose)
    for line in commands(text):
        for path in PATH.findall(line):
            if RUN.match(line) and not is_open(path) and not (TOP / path.rstrip("/.")).exists():
                yield f"no file {path}"


def crates_told(tree):
    """Crates that docs/ARCHITECTURE.md doesn't tell, and those that it tells and that aren't there."""
    told, inside = set(), False
    for line in (TOP / "docs/ARCHITECTURE.md").read_text().splitlines():
        if line.startswith("| Crate "):
            inside = True
        elif not line.startswith("|"):
            inside = False
        elif inside and line.startswith("| `"):
            told.update(names(line.split("|")[1]))
    yield from (f"no crate {crate}" for crate in sorted(told - set(tree.crates)))
    yield from (f"the crate {crate} isn't told" for crate in sorted(set(tree.crates) - told))


def main():
    tree = Tree()
    found = [(page, fault) for page in PAGES if not page.name.startswith("HEADLINE-") for fault in missing(tree, page)]
    proved = TOP / "docs/PROVED.md"
    for cells in rows(proved):
        if len(cells) == 3 and FUNCTION.search(cells[1]):
            found += [(proved, fault) for fault in claimed(tree, cells[1])]
    found += [(TOP / "docs/ARCHITECTURE.md", fault) for fault in crates_told(tree)]
    for page, fault in dict.fromkeys(found):
        print(f"{page.relative_to(TOP)}: {fault}")
    sys.exit(bool(found))


if __name__ == "__main__":
    main()
