"""What the second readers say of `syf`, and what no case of it has: random state machines with each encoding, damaged ones, machines at
each limit and one past it, and the data-flow texts that are written: a second writer has their one spelling, and read again by the
second reader they do what the second walker says, from each state, and behind a reset from any contents.
"""

import random
import re

from acceptance.makers.random_sources import changed
from acceptance.makers.random_states import WORDS, StateMaker
from acceptance.meaning import state_text
from acceptance.meaning.state_machine import machine_of
from acceptance.readers.words import TOOLS_LINE, command, held, trouble
from acceptance.running.results import Room, compare, run_in, shown
from acceptance.tools.answers import agrees, refusal
from acceptance.tools.boom import EXAMPLES
from acceptance.tools.sources import answer
from share.formats import vbe_oracle
from share.formats.fsm_oracle import state_machine
from share.formats.state_codes import code_lines, codes
from share.formats.state_walk import cycle, leads, reset_to
from share.formats.vbe_oracle import FILE
from share.formats.vhdl_reader import Refused

USAGE = "usage: alliance syf SOURCE.fsm -o NAME [-e o|r|j] [--seed 0..4294967295]\n"
STYLES, MOST_SEED = "orj", 2**32 - 1
VECTORS, STATES, MACHINES, CHUNK = 10, 20, 120, 20


# ---- the second answer


def style_of(given):
    """The style and the seed of these options, or None."""
    style, seed = given.get("-e", "j"), given.get("--seed", "0")
    if style not in list(STYLES) or not re.fullmatch("[0-9]{1,10}", seed) or int(seed) > MOST_SEED:
        return None
    return style, int(seed)


def parsed(words):
    """SOURCE, NAME, and the style with its seed, or None."""
    found = command(words, ".fsm", {"-o": "", "-e": "", "--seed": ""})
    if not found or "-o" not in found[1] or style_of(found[1]) is None:
        return None
    return found[0], found[1]["-o"], style_of(found[1])


def codes_of(machine, style):
    return codes(len(machine.states), *style, lambda s, t: leads(machine.body, s, t))


def second(words, files):
    """What the second readers say of a command over files: (status, text)."""
    found = parsed(words)
    if found is None:
        return 1, USAGE
    source, _, style = found
    refused = trouble(files, source, FILE)
    if refused:
        return refused[0], f"syf: {refused[1]}\n"
    try:
        machine = state_machine(held(files, source))
    except Refused as refused:
        return refusal("syf", source, str(refused))
    return 0, code_lines(machine.states, codes_of(machine, style))


# ---- the text that is written


def behaviour_faults(machine, made, registers, settled, choose):
    """Where something that has these registers doesn't do what the state machine does. Of inputs and contents `settled` gives the outputs
    and the next contents, as codes: from some states' codes, and, where a vector resets, from random contents."""
    is_small = len(made) <= STATES
    states = range(len(made)) if is_small else sorted(choose.sample(range(len(made)), STATES // 2))
    for _ in range(VECTORS if is_small else 2):
        inputs = {bit: choose.randrange(2) for bit in machine.inputs}
        for state in states:
            outputs, after = cycle(machine, inputs, state)
            if settled(inputs, made[state]) != (outputs, made[after]):
                yield f"{machine.states[state]} under {inputs}"
                return
        after, contents = reset_to(machine, inputs), [choose.randrange(2) for _ in registers]
        if after is not None and settled(inputs, contents)[1] != made[after]:
            yield f"a reset under {inputs} from {contents}"
            return


def read_again(machine, made, text):
    """What is wrong with what the text does, or nothing."""
    try:
        m = vbe_oracle.machine(text)
    except Refused as refused:
        return [f"it is refused: {refused}"]
    registers = sorted(m.registers)
    if (m.name, m.ports) != (machine.name, machine.ports) or m.clock != machine.clock or len(registers) != len(made[0]):
        return ["the name, the ports, the clock or the registers"]

    def settled(inputs, contents):
        env = m.settle({**inputs, (m.clock, -1): 0}, dict(zip(registers, contents)))
        loads = m.load(env)
        return {bit: env[bit] for bit in machine.outputs}, [loads[bit] for bit in registers]

    return list(behaviour_faults(machine, made, registers, settled, random.Random(len(text))))


def written_faults(words, files, text):
    """What is wrong with the text that a command wrote, or nothing. One that is too long for a file isn't read again."""
    source, _, style = parsed(words)
    machine = state_machine(held(files, source))
    made = codes_of(machine, style)
    wanted = state_text.text(machine_of(machine, made, style[0] == "o")).encode()
    faults = read_again(machine, made, text) if len(text) <= FILE else []
    if wanted != text:
        lines = list(zip(text.split(b"\n"), wanted.split(b"\n")))
        at = next((k for k, pair in enumerate(lines) if pair[0] != pair[1]), len(lines))
        faults.append(f"line {at + 1} is {lines[at : at + 1]}")
    return faults


def writes(words, files):
    """The file that a command writes, with the check of its text."""
    return f"{parsed(words)[1]}.vbe", lambda text: written_faults(words, files, text)


# ---- what is run


def run_encoded(results, program, title, source, words):
    """Runs syf on s.fsm, and where it succeeds reads what it wrote."""
    files = {"s.fsm": source}
    wanted = second(words, files)
    status, printed, after = run_in(files, program, words)
    is_well = agrees((status, printed), wanted)
    results.note(title, is_well, f"{words} came to {shown(status, printed)}, wanted {wanted} for {source[:3000]!r}")
    text = after.pop("r.vbe", None)
    results.note(f"{title}: the files", after == files and (text is None) == (wanted[0] != 0), f"{sorted(after)}")
    if is_well and text is not None:
        faults = written_faults(words, files, text)
        results.note(f"{title}: the text", not faults, f"{faults} in {text[:3000]!r} for {source[:2000]!r}")


def words_by(choose):
    return ["syf", "s.fsm", "-o", "r", "-e", choose.choice(STYLES), "--seed", str(choose.choice([0, 1, choose.randrange(2**32), MOST_SEED]))]


def random_source(choose):
    source = StateMaker(choose).source()
    return (changed(choose, source, WORDS) if choose.random() < 0.4 else source).encode()


def check_machines(results, program, seed, numbers):
    for number in numbers:
        choose = random.Random(f"{seed} syf {number}")
        run_encoded(results, program, "a random state machine", random_source(choose), words_by(choose))


# ---- texts that are cut or changed


def cut_texts():
    """A text of two states cut at every byte, and without each byte."""
    body = "o <= k;\nif k then ns <= s1;\nelse case cs is when s0 | s1 => ns <= s0; when others => end case; end if;"
    text = text_of("s0, s1", body, "k : in bit; o : out bit")
    return list(dict.fromkeys([*(text[:at] for at in range(len(text) + 1)), *(text[:at] + text[at + 1 :] for at in range(len(text)))]))


def check_cut(results, program, texts):
    with Room() as room:
        for text in texts:
            room.write({"s.fsm": text})
            got, wanted = room.run(program, ["syf", "s.fsm", "-o", "r"]), second(["syf", "s.fsm", "-o", "r"], {"s.fsm": text})
            results.note("a text that is cut or changed", agrees(got, wanted), f"came to {shown(*got)}, wanted {wanted} for {text!r}")


# ---- large ones, and each limit


def text_of(states="s0", body="ns <= s0;\ncase cs is end case;", ports=""):
    """A text of a state machine, whose statements begin on line 8."""
    ports = f"ck : in bit{f'; {ports}' if ports else ''}"
    pragmas = "-- pragma CURRENT_STATE cs\n-- pragma NEXT_STATE ns\n-- pragma CLOCK ck\n"
    declared = f"architecture a of e is type t is\n({states}); signal cs, ns : t;\n{pragmas}begin process begin\n"
    end = "\nend process; process begin if ck and not ck'stable then cs <= ns; end if; end process; end a;\n"
    return f"entity e is port ({ports}); end e;\n{declared}{body}{end}".encode()


def ring(count):
    """Each state leads to the one behind it, and the last to the first."""
    states = [f"s{k}" for k in range(count)]
    branches = "".join(f"when {state} => ns <= {states[(k + 1) % count]};\n" for k, state in enumerate(states))
    return text_of(", ".join(states), f"o <= '0';\ncase cs is\n{branches}end case;\n", "o : out bit")


def fork(count):
    """Each state leads to the one behind it or to the one at twice its number, by an input; a reset leads to the first."""
    states = [f"s{k}" for k in range(count)]
    branches = "".join(
        f"when {state} => if i then ns <= {states[(k + 1) % count]}; else ns <= {states[2 * k % count]}; end if;\n" for k, state in enumerate(states)
    )
    body = f"o <= '0';\nif reset then ns <= s0; else case cs is\n{branches}end case; end if;\n"
    return text_of(", ".join(states), body, "reset, i : in bit; o : out bit")


def padded(text, size):
    return text + b"-" * (size - len(text))


def limits():
    """For each case what it is, its text, and the line that is wanted, or None where it is read."""
    for size, line in ((FILE, None), (FILE + 1, f"file {FILE + 1}")):
        yield f"a state machine of {size} bytes", padded(text_of(), size), line
    for count, line in ((64, None), (65, "ident 65")):
        yield f"a state's name of {count} bytes", text_of(states="s" * count, body=f"ns <= {'s' * count};\ncase cs is end case;"), line
    for count, line in ((256, None), (257, "depth 257")):
        ifs = "if '1' then " * (count - 1)
        yield f"{count} ifs and a case", text_of(body=f"ns <= s0;\n{ifs}case cs is end case;{'end if;' * (count - 1)}"), line
    for count, line in ((16384, None), (16385, "chain 16385")):
        assignments = "o <= '0';" * count
        yield f"{count} assignments of a bit", text_of(body=f"ns <= s0;\ncase cs is end case;\n{assignments}", ports="o : out bit"), line
        yield f"{count} assignments of the next state", text_of(body=f"case cs is end case;\n{'ns <= s0;' * count}"), line
        operators = " and '1'" * count
        yield f"{count} operators", text_of(body=f"ns <= s0;\ncase cs is end case; assert '1'{operators};"), line
    for count, line in ((256, None), (257, "states 257")):
        yield f"{count} states", ring(count), line
    for count, line in ((4096, None), (4097, "ports 4097")):
        yield f"{count} bits of ports", text_of(ports=f"i : in bit_vector ({count - 2} downto 0)"), line


def check_limits(results, program):
    for title, text, line in limits():
        for style in STYLES if title.endswith("states") and line is None else "r":
            words = ["syf", "s.fsm", "-o", "r", "-e", style]
            if line is None:
                run_encoded(results, program, title, text, words)
            else:
                wanted = second(words, {"s.fsm": text})
                results.note(f"{title} in the second reader", wanted == (9, f"syf: limit: {line}\n"), wanted)
                compare(results, title, run_in({"s.fsm": text}, program, words), 9, f"syf: limit: {line}\n".encode(), {"s.fsm": text})


def check_rings(results, program):
    for count in (1, 2, 3, 255):
        for style in STYLES:
            run_encoded(results, program, f"a ring of {count} states", ring(count), ["syf", "s.fsm", "-o", "r", "-e", style, "--seed", "7"])


def check_examples(results, program):
    """Each example in each encoding, and its patterns on what was written: they reset first, so that they hold whatever the codes are."""
    for path in sorted(EXAMPLES.glob("*/*.fsm")):
        for style in STYLES:
            words = ["syf", "s.fsm", "-o", "r", "-e", style]
            run_encoded(results, program, f"the example {path.name}", path.read_bytes(), words)
            with Room() as room:
                room.write({"s.fsm": path.read_bytes(), "t.pat": path.with_suffix(".pat").read_bytes()})
                room.run(program, words)
                files = room.held()
                got, wanted = room.run(program, ["asimut", "r.vbe", "-p", "t.pat"]), answer("r.vbe", files.get("r.vbe", b""), "t.pat", files["t.pat"])
                results.note(f"the patterns of {path.name}", got[0] == 0 and agrees(got, wanted), shown(*got))


def check_words(results, program):
    files = {"s.fsm": text_of()}
    got = run_in(files, program, [b"syf", b"\xff.fsm", "-o", "r"])
    compare(results, "a word of syf that is no text", got, 1, TOOLS_LINE.encode(), files)
    got = run_in(files, program, ["syf", "s.fsm", "-o", "nowhere/r"])
    compare(results, "a text in a folder that isn't there", got, 7, b"syf: file: write fault nowhere/r.vbe\n", files)
    with Room() as room:
        room.write(files)
        got = room.run(program, ["syf", f"{room.folder}/s.fsm", "-o", f"{room.folder}/r"])
        compare(results, "syf with paths from the root", (*got, {"s.fsm": room.held().get("s.fsm")}), 0, b"code s0 -\n", files)


def jobs(program, seed, times):
    yield check_limits, (program,)
    yield check_rings, (program,)
    texts = cut_texts()
    for at in range(0, len(texts), 10 * CHUNK):
        yield check_cut, (program, texts[at : at + 10 * CHUNK])
    numbers = range(MACHINES * times)
    for at in range(0, len(numbers), CHUNK):
        yield check_machines, (program, seed, numbers[at : at + CHUNK])
    yield check_examples, (program,)
    yield check_words, (program,)
