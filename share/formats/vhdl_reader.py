"""A second reader of VHDL: tokens, entities, declarations and expressions, written from docs/formats/vhdl.md alone."""

import sys

sys.setrecursionlimit(100000)

RESERVED = set(
    """after and architecture assert begin bit bit_vector block bus case component constant downto else elsif end
    entity generic guarded if in inout is map mux_bit mux_vector nand nor not of or others out port process reg_bit
    reg_bit_vector reg_vector register report severity signal then to type when wor_bit wor_vector xnor xor""".split()
)
SIGNS = ["<=", "=>", ":=", "/=", "(", ")", ",", ";", ":", "=", "&", "|", "'", "<", ">", "+", "?", "*"]
LETTERS = set(b"abcdefghijklmnopqrstuvwxyzABCDEFGHIJKLMNOPQRSTUVWXYZ")
DIGITS = set(b"0123456789")
WORD = LETTERS | DIGITS | {95}
DEPTH, CHAIN, BITS, IDENT, NUMBER = 256, 16384, 1048576, 64, 4294967295
U64 = 2**64 - 1
SUPPLIES = ("vdd", "vss")
WIDTHS = {"b": 1, "o": 3, "x": 4}


class Refused(Exception):
    """A refusal, as `input LINE KIND NAMES` or `limit KIND REACHED`. Of a byte that begins no token it has the place `at`."""

    at = None


def fault(line, kind, *names):
    return Refused(" ".join(["input", str(line), kind, *names]))


def limit(kind, reached):
    return Refused(f"limit {kind} {min(reached, U64)}")


# ---- tokens


class Token(tuple):
    """A token as (kind, value, line); it begins at the byte `start`, and ends before `end`."""

    start = end = None


class Scanner:
    """A place in a text, and the tokens before it."""

    def __init__(self, text):
        self.text, self.at, self.line, self.tokens = text, 0, 1, []

    def push(self, kind, value, end):
        token = Token((kind, value, self.line))
        token.start, token.end = self.at, end
        self.tokens.append(token)
        self.at = end

    def bad_byte(self):
        refused = fault(self.line, "bad byte")
        refused.at = self.at
        return refused

    def past(self, bytes_of_it):
        """Where bytes of this kind end."""
        end = self.at
        while end < len(self.text) and self.text[end] in bytes_of_it:
            end += 1
        return end

    def passes_blank(self):
        """Passes over a blank or a comment, if one stands here."""
        c = self.text[self.at]
        if c in b" \t\r\n":
            self.line += c == 10
            self.at += 1
            return True
        if not self.text.startswith(b"--", self.at):
            return False
        end = self.text.find(b"\n", self.at)
        self.at = len(self.text) if end < 0 else end
        return True

    def word(self, reserved):
        end = self.past(WORD)
        word = self.text[self.at : end].decode().lower()
        if len(word) > IDENT:
            raise limit("ident", len(word))
        self.push(word if word in reserved else "id", word, end)

    def number(self):
        end = self.past(DIGITS)
        value = int(self.text[self.at : end].lstrip(b"0")[:40] or b"0")
        if value > NUMBER:
            raise limit("number", value)
        self.push("number", value, end)

    def quote_end(self, start):
        """Where the quote stands that ends the text from here on its line, or None."""
        end = start
        while end < len(self.text) and self.text[end] not in b'"\n':
            end += 1
        return end if self.text[end : end + 1] == b'"' else None

    def quoted(self):
        end = self.quote_end(self.at + 1)
        if end is None:
            raise self.bad_byte()
        self.push("quoted", self.text[self.at + 1 : end], end + 1)

    def sign(self):
        sign = next((s for s in SIGNS if self.text.startswith(s.encode(), self.at)), None)
        if sign is None:
            raise self.bad_byte()
        self.push(sign, sign, self.at + len(sign))
        return sign

    def last_line(self):
        return max(self.text.count(b"\n") + (not self.text.endswith(b"\n")), 1)


def lex(text):
    """The tokens as (kind, value, line), and the line of the end."""
    scan = Scanner(text)
    while scan.at < len(text):
        c, at = text[scan.at], scan.at
        if scan.passes_blank():
            continue
        if c in b"bBoOxX" and text[at + 1 : at + 2] == b'"':
            end = scan.quote_end(at + 2)
            if end is None:
                # the letter is an identifier then, and the quote begins no token
                scan.push("id", chr(c).lower(), at + 1)
            else:
                scan.push("bitstring", (chr(c).lower(), text[at + 2 : end]), end + 1)
        elif c in LETTERS:
            scan.word(RESERVED)
        elif c in DIGITS:
            scan.number()
        elif text[at : at + 3] in (b"'0'", b"'1'"):
            scan.push("bitlit", chr(text[at + 1]), at + 3)
        elif c == 34:
            scan.quoted()
        else:
            scan.sign()
    return scan.tokens, scan.last_line()


# ---- names and their bits


class Symbol:
    """A port or a signal: role is in, out, inout, inner or register; bounds is None or (left, falls, right)."""

    def __init__(self, name, role, bounds, line):
        self.name, self.role, self.bounds, self.line = name, role, bounds, line

    def bits(self):
        return bits_of(self.name, self.bounds)

    def needs_driver(self):
        return self.role in ("out", "inner", "register")


def numbers(bounds):
    left, falls, right = bounds
    return range(left, right - 1, -1) if falls else range(left, right + 1)


def bits_of(name, bounds):
    return [(name, -1)] if bounds is None else [(name, k) for k in numbers(bounds)]


def ordered(bounds):
    left, falls, right = bounds
    return left >= right if falls else left <= right


def spelled(bit):
    return bit[0] if bit[1] < 0 else f"{bit[0]}({bit[1]})"


# ---- the grammar


class Reader:
    """Trees are tuples: ("bit", line, bits), ("literal", line, bits), ("name", line, text), ("index", line, text, k),
    ("slice", line, text, bounds, line of its parenthesis), ("stable", line, text), ("not", line, tree), and
    ("join", operator, first tree, [(line, tree)..]) for operators of one kind, grouped from the left."""

    def __init__(self, tokens, last):
        self.tokens, self.last, self.at = tokens, last, 0
        self.names, self.bits, self.depth, self.operators = set(), 0, 0, 0
        self.symbols, self.forms, self.ranges, self.entity_name = [], [], [], None
        self.wanted = ()

    def kind(self):
        return self.tokens[self.at][0] if self.at < len(self.tokens) else None

    def line(self):
        return self.tokens[self.at][2] if self.at < len(self.tokens) else self.last

    def syntax(self):
        return fault(self.line(), "syntax")

    def take(self, *kinds):
        if self.kind() not in kinds:
            self.wanted = kinds
            raise self.syntax()
        self.at += 1
        return self.tokens[self.at - 1]

    def open(self):
        if self.kind() != "(":
            raise self.syntax()
        if self.depth == DEPTH:
            raise limit("depth", DEPTH + 1)
        self.depth += 1
        self.at += 1

    def close(self):
        self.take(")")
        self.depth -= 1

    # entities and declarations

    def new_names(self, start):
        """Names with their lines. The line of a name that is declared twice is that on which its declaration starts."""
        made = []
        while True:
            line = self.line()
            if self.kind() == "id" and self.tokens[self.at][1] in self.names:
                raise fault(start, "twice", self.tokens[self.at][1])
            name = self.take("id")[1]
            self.names.add(name)
            made.append((name, line))
            if self.kind() != ",":
                return made
            self.at += 1

    def typed(self, names, words):
        """A type: its word, its bounds and its line. The bits are counted at the parenthesis that closes."""
        line = self.line()
        word = self.take(*words)[0]
        if not word.endswith("vector"):
            self.count(len(names))
            return word, None, line
        paren = self.line()
        self.open()
        left = self.take("number")[1]
        falls = self.take("downto", "to")[0] == "downto"
        bounds = (left, falls, self.take("number")[1])
        if self.kind() != ")":
            raise self.syntax()
        self.ranges.append((bounds, paren))
        self.count(len(names) * (abs(bounds[0] - bounds[2]) + 1) if ordered(bounds) else 0)
        self.close()
        return word, bounds, line

    def count(self, bits):
        self.bits += bits
        if self.bits > BITS:
            raise limit("bits", self.bits)

    def entity(self):
        self.take("entity")
        opened = self.entity_name = self.take("id")[1]
        self.take("is")
        if self.kind() == "generic":
            self.at += 1
            self.listed(self.generic)
        self.take("port")
        self.listed(self.port)
        self.take("end")
        self.closed(opened)
        return opened

    def listed(self, item):
        """Items in parentheses with semicolons between them, and a semicolon."""
        self.open()
        item()
        while self.kind() == ";":
            self.at += 1
            item()
        self.close()
        self.take(";")

    def closed(self, opened):
        """The name that was opened, or none, and a semicolon."""
        if self.kind() == "id":
            if self.tokens[self.at][1] != opened:
                raise self.syntax()
            self.at += 1
        self.take(";")

    def generic(self):
        start = self.line()
        if self.kind() == "constant":
            self.at += 1
        self.new_names(start)
        self.take(":")
        self.take("id")
        if self.kind() == ":=":
            self.at += 1
            self.take("number")

    def port(self):
        start = self.line()
        if self.kind() == "signal":
            self.at += 1
        names = self.new_names(start)
        self.take(":")
        mode_line = self.line()
        mode = self.take("in", "out", "inout")[0]
        word, bounds, line = self.typed(names, ("bit", "bit_vector", "mux_bit", "wor_bit", "mux_vector", "wor_vector"))
        if self.kind() == "bus":
            self.at += 1
        for name, at in names:
            self.symbols.append(Symbol(name, mode, bounds, start))
            if name in SUPPLIES and (mode, word) != ("in", "bit"):
                self.forms.append(at)
        if mode == "inout":
            self.forms.append(mode_line)
        if word[:3] in ("mux", "wor"):
            self.forms.append(line)

    def declarations(self):
        while self.kind() == "signal":
            start = self.line()
            self.at += 1
            names = self.new_names(start)
            self.take(":")
            word, bounds, _ = self.typed(names, ("bit", "bit_vector", "reg_bit", "reg_vector", "reg_bit_vector"))
            if word.startswith("reg"):
                self.take("register")
            self.take(";")
            for name, at in names:
                self.symbols.append(Symbol(name, "register" if word.startswith("reg") else "inner", bounds, start))
                if name in SUPPLIES:
                    self.forms.append(at)

    # expressions

    def operator(self):
        if self.operators == CHAIN:
            raise limit("chain", CHAIN + 1)
        self.operators += 1
        self.at += 1

    def expression_anew(self):
        self.operators = 0
        return self.expression()

    def expression(self):
        first = self.relation()
        word, others = self.kind(), []
        while self.kind() == word and word in ("and", "or", "xor", "xnor"):
            others.append(self.further(self.relation))
        if word in ("nand", "nor"):
            others.append(self.further(self.relation))
        return ("join", word, first, others) if others else first

    def further(self, operand):
        line = self.line()
        self.operator()
        return line, operand()

    def relation(self):
        first, word = self.cat(), self.kind()
        return ("join", word, first, [self.further(self.cat)]) if word in ("=", "/=") else first

    def cat(self):
        first, others = self.factor(), []
        while self.kind() == "&":
            others.append(self.further(self.factor))
        return ("join", "&", first, others) if others else first

    def factor(self):
        return ("not", *self.further(self.primary)) if self.kind() == "not" else self.primary()

    def primary(self):
        kind, line = self.kind(), self.line()
        if kind == "(":
            self.open()
            tree = self.expression()
            self.close()
            return tree
        value = self.tokens[self.at][1] if kind else None
        if kind == "bitlit":
            self.at += 1
            return ("bit", line, [int(value)])
        if kind == "quoted" and all(c in b"01" for c in value):
            self.at += 1
            return ("literal", line, [c - 48 for c in value])
        if kind == "bitstring" and self.fits(*value):
            self.at += 1
            width = WIDTHS[value[0]]
            digits = [int(chr(c), 16) for c in value[1]]
            return ("literal", line, [d >> (width - 1 - k) & 1 for d in digits for k in range(width)])
        self.take("id")
        if self.kind() == "'":
            self.at += 1
            if self.kind() != "id" or self.tokens[self.at][1] != "stable":
                raise self.syntax()
            self.at += 1
            return ("stable", line, value)
        selection = self.selection()
        if selection is None:
            return ("name", line, value)
        return ("index", line, value, selection) if isinstance(selection, int) else ("slice", line, value, *selection)

    @staticmethod
    def fits(base, digits):
        allowed = {"b": b"01", "o": b"01234567", "x": b"0123456789abcdefABCDEF"}[base]
        return all(c in allowed for c in digits)

    def selection(self):
        """None, the number of a bit, or the bounds of a range with the line of its parenthesis."""
        if self.kind() != "(":
            return None
        paren = self.line()
        self.open()
        left = self.take("number")[1]
        if self.kind() == ")":
            self.close()
            return left
        falls = self.take("downto", "to")[0] == "downto"
        right = self.take("number")[1]
        self.close()
        return (left, falls, right), paren
