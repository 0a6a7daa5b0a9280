"""The program front_probe against the second reader of VHDL, on many texts.

The texts are every prefix of two examples, each byte of them changed to each of a dozen others, every limit at its number
and one past it, and texts made at random of tokens.
"""

import random
import subprocess

from acceptance.running.results import Results
from share.formats.vhdl_reader import Reader, Refused, lex

EXAMPLES = [
    b"""-- one inverter
entity row1 is port (i : in bit; nq : out bit; vdd : in bit; vss : in bit); end row1;
architecture vbe of row1 is begin
nq <= not (i);
end vbe;
""",
    b"""ENTITY cnt4 IS
  GENERIC (CONSTANT area : NATURAL := 12; tp, tq : natural);
  PORT (SIGNAL ck, en : IN BIT;
        q : OUT BIT_VECTOR (3 DOWNTO 0) BUS;
        vdd, vss : in bit);
END cnt4;
ARCHITECTURE vbe OF cnt4 IS
  SIGNAL r0, r1 : REG_BIT REGISTER;
  signal v : reg_vector (0 to 3) register;
  signal w : reg_bit_vector (7 downto 4) register;
  signal s : bit_vector (1 to 1);
BEGIN
  q(3) <= r0 and not (r1 xor '1') and v(2);
  q(2 downto 1) <= "0" & b"1" xor x"f";
  s <= (ck'stable = '0') or (en /= '1') or (r0 nand r1); -- a comment; with 'signs'
  q(0) <= a xnor b xnor c;
END;
""",
]
CHANGES = b"(;\"'a0-_ \n<x"
RANDOM = 3000
CHUNK = 1500


def answer(text):
    """The line that the probe has to print: of the entity, of the declarations behind the first `signal` or `begin`, and of
    the expression behind each `<=` up to its `;`."""
    try:
        reader = Reader(*lex(text))
        name = reader.entity()
        ports = len(reader.symbols)
        while reader.kind() not in ("signal", "begin", None):
            reader.at += 1
        reader.declarations()
        signals = len(reader.symbols) - ports
        expressions = 0
        while reader.kind() is not None:
            if reader.kind() == "<=":
                reader.at += 1
                reader.expression_anew()
                expressions += 1
                if reader.kind() != ";":
                    raise reader.syntax()
            reader.at += 1
        return f"read {name} {ports} {signals} {expressions}"
    except Refused as refused:
        return str(refused)


def entity(ports="a : in bit; q : out bit"):
    return f"entity e is port ({ports}); end e;\n".encode()


def body(declared="", statements=""):
    return f"architecture vbe of e is\n{declared}begin\n{statements}end vbe;\n".encode()


def limits():
    """Texts at each limit and one past it."""
    for n in (64, 65, 66):
        yield entity(f"{'n' * n} : in bit")
    for n in ("4294967295", "4294967296", "0" * 300 + "7", "9" * 40):
        yield entity() + body(statements=f"q <= a({n});\n")
    for n in (255, 256, 257):
        yield entity() + body(statements=f"q <= {'(' * n}a{')' * n};\n")
        yield entity() + body(statements=f"q <= {'(' * (n - 1)}a(0){')' * (n - 1)};\n")
    for n in (16383, 16384, 16385):
        yield entity() + body(statements="q <= a" + " and a" * n + ";\n")
        yield entity() + body(statements="q <= not a" + " & not a" * (n // 2) + ";\n")
    for n in (1048573, 1048574, 1048575):
        yield entity() + body(declared=f"signal s : bit_vector ({n} downto 1);\n")
        yield entity() + body(declared=f"signal s : reg_vector (1 to {n}) register;\n")
        yield entity(f"a : in bit; q : out bit; b : in bit_vector (1 to {n}) bus") + body()
    yield entity() + body(declared="signal s : reg_vector\n (1 to 2000000\n);\n")
    yield entity("a : in bit_vector (0 to 2000000) ; q : out")
    yield entity() + body(declared="signal s : bit_vector (1 downto 9);\nsignal t : bit_vector (0 to 1048573);\n")
    yield entity() + body(declared="signal s, t : bit_vector (4294967295 downto 0);\n")
    # many expressions, each within the limit
    yield entity() + body(statements="q <= not a and not a;\n" * 9000)
    # a name declared twice, in each list and over lines
    yield entity("a : in bit;\n q, b,\n a : out bit")
    yield entity() + body(declared="signal s, t : bit;\nsignal u,\n s : bit;\n")
    yield b"entity e is generic (g : natural);\nport (a,\n g : in bit); end;"
    yield b""
    yield b"\n"
    yield b"entity"
    yield b"entity e is port (\n"


WORDS = (
    b"entity is port generic in out inout bit bit_vector mux_bit wor_vector reg_bit reg_vector register bus signal constant "
    b"end begin architecture of downto to not and or xor xnor nand nor e f g stable natural ( ) , ; : := <= = /= & ' '0' '1' "
    b'"01" "0a" "" b"1" x"3f" o"8" 0 1 7 -- ? | => \n'
).split(b" ")


def at_random(choose, count):
    """Texts made of tokens: half of them an example with some tokens exchanged, half whatever comes."""
    for _ in range(count):
        tokens = choose.choice(EXAMPLES).split(b" ")
        for _ in range(choose.randrange(1, 4)):
            tokens[choose.randrange(len(tokens))] = choose.choice(WORDS)
        yield b" ".join(tokens)
        yield b"entity e is port (" + b" ".join(choose.choice(WORDS) for _ in range(choose.randrange(1, 14)))
        expression = b" ".join(choose.choice(WORDS) for _ in range(choose.randrange(1, 9)))
        yield entity() + b"begin q <= " + expression + b" ;"


def texts(seed, times):
    for example in EXAMPLES:
        for at in range(len(example) + 1):
            yield example[:at]
        for at in range(len(example)):
            for byte in CHANGES:
                yield example[:at] + bytes([byte]) + example[at + 1 :]
            yield example[:at] + example[at + 1 :]
    yield from limits()
    yield from at_random(random.Random(seed), RANDOM * times)


def check(results, probe, chunk):
    """One run of the probe on all these texts: the number of bytes, LF, the bytes, and so on."""
    given = b"".join(b"%d\n" % len(text) + text for text in chunk)
    done = subprocess.run([probe], input=given, stdout=subprocess.PIPE, stderr=subprocess.PIPE)
    printed = done.stdout.decode().split("\n")
    if done.returncode or done.stderr or len(printed) != len(chunk) + 1:
        results.note("the probe's end", False, f"status {done.returncode}, {len(printed) - 1} lines for {len(chunk)} texts, {done.stderr[:200]!r}")
    for text, line in zip(chunk, printed + [""] * len(chunk)):
        wanted = answer(text)
        results.note(f"the front {text[:300]!r}", line == wanted, f"printed {line!r}, wanted {wanted!r}")


def jobs(probe, seed, times):
    if probe is None:
        yield Results.skip, ("there is no program that reads fronts of VHDL texts: they aren't compared",)
        return
    all_texts = list(dict.fromkeys(texts(seed, times)))
    for at in range(0, len(all_texts), CHUNK):
        yield check, (probe, all_texts[at : at + CHUNK])
