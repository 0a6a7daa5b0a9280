"""The definitions of specs/ and the declarations of the code, and on which others each of them rests: what headline.py makes its pages of.

A definition is known by the imports of its file and by the names that stand in it. An import that leads nowhere ends the script.
"""

import pathlib
import re
import sys

TOP = pathlib.Path(__file__).resolve().parent.parent

ITEM = re.compile(r"^( *)(?:(?:pub|abbrev|unfoldable|opaque) )*(?:(?:record|data) ([^\s(:]+)|([^\s(:]+) :(?=\s|$))")
MUTUAL = re.compile(r"^(?:\w+ )*mutual$")
IMPORT = re.compile(r"^(pub )?use ([\w.]+?)(?:\.\{(.*)\}| as (\w+))?$")
GHOST = re.compile(r"^ *ghost use ([\w.]+?)(?:\.\{(.*?)\}| as (\w+))?;", re.M | re.S)
TOKEN = re.compile(r'"[^"]*"|[^\s(){}\[\],;."]+(?:\.[^\s(){}\[\],;."]+)*')
DECLARED = r"(?P<docs>(?:^ *///.*\n|^ *#\[.*\]\n)*)^ *(?:pub(?:\(\w+\))? )?(?:struct|enum|type|const|trait) {name}\b"


def listed(text):
    """The names of an import's braces, each with the name that it has here."""
    for part in text.split(","):
        if part.strip():
            name, _, here = part.strip().partition(" as ")
            yield name, here or name


class Item:
    """A definition: of a file of specs/ or of the code, with its text and what the text names."""

    def __init__(self, crate, path, name, text, order):
        self.crate, self.path, self.name, self.text, self.order = crate, path, name, text, order
        self.uses = []

    def code(self):
        return "\n".join(line for line in self.text.splitlines() if not line.lstrip().startswith("--"))


class Specs:
    """A file of specs/: its definitions, and what it imports."""

    def __init__(self, crate, path):
        self.crate, self.path = crate, path
        self.items, self.names, self.imports = [], {}, {}
        lines = path.read_text().splitlines()
        self.read_imports(lines)
        self.read_items([line for line in lines if not IMPORT.match(line) and not line.startswith("pub mod ")])

    def read_imports(self, lines):
        for line in lines:
            found = IMPORT.match(line)
            if found:
                _, source, braces, alias = found.groups()
                if braces is None:
                    self.imports[alias or source.split(".")[-1]] = (source, None)
                else:
                    self.imports.update((here, (source, name)) for name, here in listed(braces))

    def read_items(self, lines):
        """Cuts the lines into definitions. A definition begins at its name's type, with the comment above it; what is indented below it, or
        goes on with its name, belongs to it. A mutual block is one."""
        at, begun = None, 0
        for number, line in enumerate(lines):
            found, mutual = ITEM.match(line), MUTUAL.match(line)
            if mutual or found and not found[1]:
                start = self.comment(lines, number, begun)
                self.close(lines[begun:start], at)
                begun, at = start, "mutual" if mutual else found[2] or found[3]
        self.close(lines[begun:], at)

    @staticmethod
    def comment(lines, number, least):
        """Where the comment begins that stands right above a line."""
        while number > least and re.match(r"--|infix", lines[number - 1]):
            number -= 1
        return number

    def close(self, lines, name):
        if name is None:
            return
        text = "\n".join(lines).strip("\n")
        item = Item(self.crate, self.path, name, text, len(self.items))
        self.items.append(item)
        within = [name] if name != "mutual" else []
        for line in lines:
            inner = ITEM.match(line)
            if inner and name == "mutual" and len(inner[1]) == 2:
                within.append(inner[2] or inner[3])
        constructors = [m[1] for m in re.finditer(r"^ +([^\s(:]+(?: [^\s(:]+)*) :(?=\s|$)", text, re.M)] if re.search(r"\bdata ", text) else []
        for word in [*within, *(part for names in constructors for part in names.split())]:
            self.names.setdefault(word, item)


class Tree:
    def __init__(self):
        self.crates = []
        for line in (TOP / "crates.txt").read_text().splitlines():
            if line and not line.startswith("#"):
                head, _, rest = line.partition(":")
                self.crates.append((head.split()[0], rest.split()))
        self.known = {crate for crate, _ in self.crates}
        self.files, self.code, self.types, self.used_kit = {}, {}, {}, set()

    def specs(self, crate, name):
        path = TOP / "crates" / crate / "specs" / f"{name}.antt"
        if path not in self.files:
            if not path.exists():
                sys.exit(f"there is no {path.relative_to(TOP)}")
            self.files[path] = Specs(crate, path)
        return self.files[path]

    def sources(self, crate):
        if crate not in self.code:
            folder = TOP / "crates" / crate / "src"
            self.code[crate] = {path: path.read_text() for path in sorted(folder.rglob("*.rt"))}
        return self.code[crate]

    def declared(self, crate, name, module):
        """The Rust declaration of a type or constant of a crate, in this module first, or None."""
        for path, text in sorted(self.sources(crate).items(), key=lambda pair: (pair[0].stem != module, pair[0])):
            found = re.search(DECLARED.format(name=name), text, re.M)
            if found:
                if (path, name) not in self.types:
                    self.types[path, name] = Item(crate, path, name, declaration(text, found), found.start())
                return self.types[path, name]
        return None

    def exported(self, crate, name, module=""):
        """The declaration that a crate gives out by this name, its own or that of a crate below."""
        item = self.declared(crate, name, module)
        if item:
            return item
        for path, text in self.sources(crate).items():
            below = re.search(rf"^pub use (\w+)(?:::\w+)*::(?:\{{[^}}]*\b{name}\b[^}}]*\}}|{name});", text, re.M)
            if path.name == "lib.rt" and below and below[1] in self.known:
                return self.exported(below[1], name)
        return None

    def found(self, source, name):
        """What an import of this name from this place means: an item, or None for one of the kit."""
        head, *path = source.split(".")
        if head != "Rattle" or path[0] not in self.known:
            self.used_kit.add((source, name or source.split(".")[-1]))
            return None
        crate, _, *inner = path
        if inner[0] == "contracts":
            return None
        if inner[0] == "declared":
            words = [word for word in [*inner[1:], name] if word]
            types = [word for word in words if word[0].isupper() and word not in ("TheVariants", "TheConstants")]
            item = types and self.declared(crate, types[0], inner[1])
            return item or sys.exit(f"there is no {source} {name or ''}")
        file = self.specs(crate, inner[0])
        for word in [*inner[1:], name]:
            if word in file.names:
                return file.names[word]
            if word in file.imports:
                return self.found(*file.imports[word]) if file.imports[word][1] else None
        return sys.exit(f"there is no {source}.{name}")

    def used(self, file, text):
        """The items that a text of a file names."""
        words = set(TOKEN.findall(text))
        heads = {word.split(".")[0] for word in words} | words
        seen = []
        for name in [*file.names, *file.imports]:
            parts = [part for part in name.split("◌") if part]
            if parts and all(part in heads for part in parts):
                if name in file.names:
                    seen.append(file.names[name])
                elif file.imports[name][1] is None and ".declared." not in file.imports[name][0]:
                    _, crate, _, whole = file.imports[name][0].split(".")
                    inner = self.specs(crate, whole).names if crate in self.known else {}
                    seen += [inner.get(word.split(".")[1]) for word in sorted(words) if word.startswith(f"{name}.")]
                else:
                    seen.append(self.found(*file.imports[name]))
        return [item for item in dict.fromkeys(seen) if item]

    def renamed(self, file, text, twins):
        """What imported names in a text of a file mean: those that the file calls otherwise, and those that several files define."""
        words = {word.split(".")[0] for word in TOKEN.findall(text)}
        for here, (source, name) in file.imports.items():
            if here not in words:
                continue
            if name is None:
                of = source.removesuffix(".TheVariants").split(".")[-1]
                if here != re.sub(r"(?<=[a-z])(?=[A-Z])", "_", of).lower():
                    yield f"behind `{here}.` stand {'cases' if source.endswith('.TheVariants') else 'names'} of `{of}`"
            elif here != name:
                item = self.found(source, name)
                yield f"`{here}` is `{name}` of " + (f"`{item.path.relative_to(TOP)}`" if item else "the kit")
            elif here in twins:
                item = self.found(source, name)
                yield f"`{here}` is that of " + (f"`{item.crate}`" if item else "the kit")

    def fields(self, item):
        """The types of this repository that a Rust declaration names."""
        seen = []
        text = re.sub(r"^ *//.*$", "", item.text, flags=re.M)
        whole = self.sources(item.crate)[item.path]
        for word in dict.fromkeys(re.findall(r"\b[A-Z]\w*", text)):
            if word == item.name:
                continue
            crates = re.findall(rf"^use (\w+)(?:::\w+)*::(?:\{{[^}}]*\b{word}\b[^}}]*\}}|{word});", whole, re.M)
            crate = next((crate for crate in crates if crate in self.known), item.crate)
            found = self.exported(crate, word, item.path.stem)
            if found and found is not item:
                seen.append(found)
        return seen


def declaration(text, found):
    """A declaration with its comment, without its attributes."""
    start = found.end()
    end = re.compile(r"[;{]").search(text, start)
    stop = end.end() if end[0] == ";" else text.index("\n}", start) + 2
    docs = "".join(re.findall(r"^ *///.*\n", found["docs"], re.M))
    return docs + re.sub(r"^ *#\[.*\]\n", "", text[found.end("docs") : stop], flags=re.M)


def closure(tree, items, known, cut):
    """These items and all on which they rest, but for what is known; what the names of `cut` rest on is left out."""
    found, waiting = {}, list(items)
    while waiting:
        item = waiting.pop()
        if item in found or item in known:
            continue
        if not item.uses:
            in_specs = item.path.suffix == ".antt"
            item.uses = tree.used(tree.files[item.path], item.code()) if in_specs else tree.fields(item)
        found[item] = True
        if item.name not in cut:
            waiting += item.uses
    return list(found)


def downwards(names, below):
    """The names, each before all that stand below it; of several the first."""
    order, left = [], list(names)
    while left:
        free = [name for name in left if not any(name in below(other) for other in left if other != name)] or left[:1]
        order.append(free[0])
        left.remove(free[0])
    return order
