#!/usr/bin/env python3
"""Writes the pages of the headline, of the tree as it stands:

- docs/HEADLINE.md: the theorem in words, as README has it, and as the clauses of the top call, and the definitions that matter most;
- docs/HEADLINE-DEFINITIONS.md: these, and the others on which the clauses rest, but for what they say of inputs;
- docs/HEADLINE-CAUSES.md: when each status of `flow` comes and what it leaves, with the evidence of a stuck net;
- build/HEADLINE-INPUTS.md, which isn't kept: which words are a command, which bytes a source and a library.

Usage: bench/headline.py             writes the pages
       bench/headline.py --check     says which of those that are kept are out of date, and ends with status 1 where one is;
                                     acceptance/run.sh and bench/check.sh call it

They are made of the call `alliance_main`, of the imports of each file of specs/, and of the names that stand in each definition. A definition
of specs/ is shown with its comment, a type or constant of the code as its Rust declaration with its comment, a definition of the kit by its
name. An import that leads nowhere ends the script, and so does a name that headline_words.py tells and that isn't a definition of the pages.
"""

import re
import sys
from collections import Counter, defaultdict

from headline_words import CAUSES, DEFINITIONS, FRONT, HEAD, INPUTS, KIT, LEFT_TO_INPUTS, MATTERS, STATUSES, TAIL
from spec_tree import GHOST, TOP, Tree, closure, downwards, listed

CALL = "alliance_main"
THEOREM, OF_CAUSES = ["headline", "lays"], ["usage", "words", "nothing", "cause", "complete", "line"]
FRONT_PAGE, ALL, CAUSES_PAGE = (TOP / "docs" / name for name in ("HEADLINE.md", "HEADLINE-DEFINITIONS.md", "HEADLINE-CAUSES.md"))
INPUTS_PAGE = TOP / "build/HEADLINE-INPUTS.md"
QUOTED = re.compile(r"^> (When the call began.*)$", re.M)


class Top:
    """The call, with the imports of its file."""

    def __init__(self, tree):
        for crate, _ in tree.crates:
            for path, text in tree.sources(crate).items():
                place = re.search(rf"(?:^ *///.*\n)*^pub fn {CALL}\b", text, re.M)
                if place:
                    self.crate, self.path, self.text = crate, path, text[place.start() :]
                    self.read_imports(tree, text)
                    return
        sys.exit(f"there is no call {CALL}")

    def read_imports(self, tree, text):
        self.names, self.imports = {}, {}
        for source, braces, alias in GHOST.findall(text):
            if braces:
                self.imports.update((here, (source, name)) for name, here in listed(braces))
            else:
                self.imports[alias or source.split(".")[-1]] = (source, None)
        for source, inside in re.findall(r"^use (\w+)(?:::\w+)*::(\{[^}]*\}|\w+);", text, re.M):
            for word in re.findall(r"\b[A-Z]\w*", inside if source in tree.known else ""):
                item = tree.exported(source, word)
                if item:
                    self.names[word] = item

    def head(self):
        """The call without its comment and its contract."""
        text = self.text[self.text.index("pub fn") :]
        return text[: re.search(r"^ *(//|ensures)", text, re.M).start()].rstrip()

    def clause(self, name):
        """A clause with the comment above it."""
        found = re.search(rf"((?:^ *//.*\n)*)^( *)ensures {name} \{{", self.text, re.M)
        if not found:
            sys.exit(f"{CALL} has no clause {name}")
        depth, at = 0, found.end() - 1
        for at in range(found.end() - 1, len(self.text)):
            depth += {"{": 1, "}": -1}.get(self.text[at], 0)
            if depth == 0:
                break
        return re.sub(r"^    ", "", self.text[found.start() : at + 1], flags=re.M)

    def shown(self, names):
        clauses = "\n\n".join(self.clause(name) for name in names)
        return f"```rust\n{self.head()}\n{clauses}\n```\n"

    def rests_on(self, tree, names):
        """The definitions that these clauses name."""
        return tree.used(self, "\n".join(re.sub(r"//.*", "", self.clause(name)) for name in names))


def in_words():
    """The theorem as README says it."""
    found = QUOTED.search((TOP / "README.md").read_text())
    return found[1] if found else sys.exit("README.md doesn't say the theorem")


def matters_most(items):
    """Those that the front page tells, each with its line. A name that isn't among the items ends the script."""
    of_name = defaultdict(list)
    for item in items:
        if item.path.suffix == ".antt":
            of_name[item.crate, item.name].append(item)
    for heading, told in FRONT:
        for crate, name, line in told:
            if len(of_name[crate, name]) != 1:
                sys.exit(f"headline_words.py: {len(of_name[crate, name])} definitions {name} of {crate} are among those of the headline")
            yield heading, of_name[crate, name][0], line


def layers(tree, items, first):
    """The items by crate and file: these crates first, then the highest, and so the files; in a file what is used before what uses it."""
    crates = defaultdict(lambda: defaultdict(list))
    for item in items:
        crates[item.crate][item.path].append(item)
    deps = dict(tree.crates)
    others = [crate for crate, _ in reversed(tree.crates) if crate in crates and crate not in first]
    for crate in [*(crate for crate in first if crate in crates), *downwards(others, lambda name: deps[name])]:
        files = crates[crate]
        uses = {path: {other.path for item in files[path] for other in item.uses} for path in files}
        yield crate, [(path, sorted(files[path], key=lambda item: item.order)) for path in downwards(sorted(files), uses.get)]


def told(tree, crate):
    """What the first lines of a crate say of it."""
    for path, text in tree.sources(crate).items():
        if path.name == "lib.rt":
            head = re.match(r"(?://!.*\n)+", text)
            return re.split(r"\n\n", re.sub(r"^//! ?", "", head[0], flags=re.M))[0].replace("\n", " ").strip() if head else ""
    return ""


def elsewhere(tree, inside, twins):
    """What names from elsewhere mean in these definitions of a file, where the file calls them otherwise or several have the name."""
    file = tree.files[inside[0].path]
    told_names = list(tree.renamed(file, "\n".join(item.code() for item in inside), twins))
    return f"Here {'; '.join(told_names)}.\n\n" if told_names else ""


def sections(tree, items, twins, first=()):
    for crate, files in layers(tree, items, first):
        yield f"## {crate}\n\n{told(tree, crate)}\n"
        for path, inside in files:
            in_specs = path.suffix == ".antt"
            names = elsewhere(tree, inside, twins) if in_specs else ""
            texts = "\n\n".join(item.text.strip("\n") for item in inside)
            yield f"`{path.relative_to(TOP)}`\n\n{names}```{'antt' if in_specs else 'rust'}\n{texts}\n```\n"


def of_kit(names):
    """The kit's names that are used, a line for each."""
    if not names:
        return
    yield "## What the kit defines\n"
    yield "| Name | What it is | Where |\n|---|---|---|"
    for source, name in sorted(names, key=lambda pair: (pair[0], pair[1])):
        place = source.removeprefix("Rattle.").split(".declared.")[0].replace(".specs.", ": ").removesuffix(".specs")
        shown = name.replace("◌", " ").strip().replace("|", "\\|")
        yield f"| `{shown}` | {KIT.get(name, 'as it is called')} | {place} |"
    yield ""


def front(top, rows, inputs):
    """The front page."""
    yield HEAD.format(words=in_words(), clauses=top.shown(THEOREM))
    yield MATTERS.format(many=len(rows))
    yield "| | Definition | What it says | Where |\n|---|---|---|---|"
    before = None
    for heading, item, line in rows:
        link = f"[`{item.crate}`]({ALL.name}#{item.crate})"
        yield f"| {heading if heading != before else ''} | `{item.name}` | {line} | {link}, `{item.path.relative_to(item.path.parents[1])}` |"
        before = heading
    yield TAIL
    yield from (f"- `{item.name}` in `{item.path.relative_to(TOP)}`" for item in inputs)
    yield ""


def statuses(items):
    """The table of statuses; a name that isn't among the items ends the script."""
    names = {name for item in items for name in (item.name, *re.findall(r"^ +(\w+) :", item.text, re.M))}
    yield "| Status | When it comes | Defined by |\n|---|---|---|"
    for status, when, defined in STATUSES:
        missing = [name for name in defined if name not in names]
        if missing:
            sys.exit(f"headline_words.py: no definition of the causes is called {missing[0]}")
        yield f"| {status} | {when} | {', '.join(f'`{name}`' for name in defined)} |"
    yield ""


def pages(tree, top):
    """Each page with its text."""
    first = closure(tree, top.rests_on(tree, THEOREM), {}, LEFT_TO_INPUTS)
    kit = set(tree.used_kit)
    left = [item for item in first if item.name in LEFT_TO_INPUTS]
    second = closure(tree, [other for item in left for other in item.uses], dict.fromkeys(first), [])
    kit_of_inputs = set(tree.used_kit) - kit
    third = closure(tree, top.rests_on(tree, OF_CAUSES), dict.fromkeys([*first, *second]), [])
    kit_of_causes = set(tree.used_kit) - kit - kit_of_inputs
    counts = Counter(item.name for item in [*first, *second, *third] if item.path.suffix == ".antt")
    twins = {name for name, many in counts.items() if many > 1}
    rows = list(matters_most(first))
    order = list(dict.fromkeys(item.crate for _, item, _ in rows))
    yield FRONT_PAGE, "\n".join(front(top, rows, left))
    yield ALL, "\n".join([DEFINITIONS, *sections(tree, first, twins, order), *of_kit(kit)])
    causes = [CAUSES, top.shown(OF_CAUSES), *statuses([*first, *second, *third]), *sections(tree, third, twins), *of_kit(kit_of_causes)]
    yield CAUSES_PAGE, "\n".join(causes)
    yield INPUTS_PAGE, "\n".join([INPUTS, *sections(tree, second, twins), *of_kit(kit_of_inputs)])


def main():
    tree = Tree()
    checks = "--check" in sys.argv[1:]
    late = []
    for path, text in pages(tree, Top(tree)):
        if not checks:
            path.parent.mkdir(exist_ok=True)
            path.write_text(text)
        elif path != INPUTS_PAGE and not (path.exists() and path.read_text() == text):
            late.append(path)
    for path in late:
        print(f"{path.relative_to(TOP)} is out of date: bench/headline.py writes it")
    return 1 if late else 0


if __name__ == "__main__":
    sys.exit(main())
