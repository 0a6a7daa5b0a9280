"""What the second readers say of `fmi`, and what no case of it has: random state machines and ones with doubled states, damaged ones,
machines at each limit and one past it. The text that is written is the second writer's of the machine that the second minimiser makes; read
again by the second reader it has as many states, does from the new state of each state what that does, resets where that does, and no
two of its states do the same.
"""

import random

from acceptance.makers.doubled_states import doubled
from acceptance.meaning import fsm_text
from acceptance.meaning.fewest import MOST_INPUTS, fewest, inputs_read, pairs_apart, step_faults, steps_of
from acceptance.readers.words import TOOLS_LINE, command, held, trouble
from acceptance.running.places import EXAMPLES
from acceptance.running.results import Room, compare, run_in, shown
from acceptance.tools import syf
from acceptance.tools.answers import agrees, refusal
from share.formats.fsm_oracle import state_machine
from share.formats.state_walk import cycle, reset_to
from share.formats.vbe_oracle import FILE
from share.formats.vhdl_reader import Refused

USAGE = "usage: alliance fmi SOURCE.fsm -o NAME\n"
WORDS = ["fmi", "s.fsm", "-o", "r"]
MACHINES, DOUBLED, CHUNK, RUNS, VECTORS = 80, 240, 20, 3, 12


# ---- the second answer


def parsed(words):
    """SOURCE and NAME, or None."""
    found = command(words, ".fsm", {"-o": ""})
    return (found[0], found[1]["-o"]) if found and len(found[1]) == 1 else None


def of_machine(machine):
    """The status and what is printed of a machine."""
    read = len(inputs_read(machine.body))
    if read > MOST_INPUTS:
        return 9, f"fmi: limit: inputs {read}\n"
    return 0, f"states {len(fewest(machine)[0].states)}\n"


def second(words, files):
    """What the second readers say of a command over files: (status, text)."""
    found = parsed(words)
    if found is None:
        return 1, USAGE
    source = found[0]
    refused = trouble(files, source, FILE)
    if refused:
        return refused[0], f"fmi: {refused[1]}\n"
    try:
        return of_machine(state_machine(held(files, source)))
    except Refused as refused:
        return refusal("fmi", source, str(refused))


# ---- the text that is written


def run_apart(one, other, state, matched, vectors):
    """Whether the outputs of two machines differ on these vectors, from these states."""
    for vector in vectors:
        shown_by_one, state = cycle(one, vector, state)
        shown_by_other, matched = cycle(other, vector, matched)
        if shown_by_one != shown_by_other:
            return True
    return False


def behaviour_faults(given, made, new, choose):
    """Where the machine that was made doesn't do what the given one does: in runs from each state, and under a vector that resets."""
    for state, name in enumerate(given.states):
        for _ in range(RUNS):
            vectors = [{bit: choose.randrange(2) for bit in given.inputs} for _ in range(VECTORS)]
            if run_apart(given, made, state, new[state], vectors):
                yield f"a run from {name} under {vectors}"
                return
    for _ in range(VECTORS):
        vector = {bit: choose.randrange(2) for bit in given.inputs}
        after = reset_to(given, vector)
        if after is not None and reset_to(made, vector) != new[after]:
            yield f"a reset under {vector}"
            return


def read_again(given, new, text):
    """What is wrong with what the text says, or nothing."""
    try:
        made = state_machine(text)
    except Refused as refused:
        return [f"it is refused: {refused}"]
    if (made.name, made.ports, made.clock) != (given.name, given.ports, given.clock):
        return ["the name, the ports or the clock"]
    if len(made.states) != len(set(new)) or len(pairs_apart(steps_of(made))) != len(made.states) * (len(made.states) - 1) // 2:
        return ["the number of states"]
    return [*step_faults(given, made, new), *behaviour_faults(given, made, new, random.Random(len(text)))]


def written_faults(words, files, text):
    """What is wrong with the text that a command wrote, or nothing. One that is too long for a file isn't read again."""
    given = state_machine(held(files, parsed(words)[0]))
    wanted, new = fewest(given)
    faults = read_again(given, new, text) if len(text) <= FILE else []
    lines = list(zip(text.split(b"\n"), fsm_text.text(wanted).encode().split(b"\n")))
    if fsm_text.text(wanted).encode() != text:
        at = next((k for k, pair in enumerate(lines) if pair[0] != pair[1]), len(lines))
        faults.append(f"line {at + 1} is {lines[at : at + 1]}")
    return faults


def writes(words, files):
    """The file that a command writes, with the check of its text."""
    return f"{parsed(words)[1]}.fsm", lambda text: written_faults(words, files, text)


# ---- what is run


def run_made_smaller(results, program, title, source):
    """Runs fmi on s.fsm, and where it succeeds reads what it wrote."""
    files = {"s.fsm": source}
    wanted = second(WORDS, files)
    status, printed, after = run_in(files, program, WORDS)
    is_well = agrees((status, printed), wanted)
    results.note(title, is_well, f"came to {shown(status, printed)}, wanted {wanted} for {source[:3000]!r}")
    text = after.pop("r.fsm", None)
    results.note(f"{title}: the files", after == files and (text is None) == (wanted[0] != 0), f"{sorted(after)}")
    if is_well and text is not None:
        faults = written_faults(WORDS, files, text)
        results.note(f"{title}: the text", not faults, f"{faults} in {text[:3000]!r} for {source[:2000]!r}")


def check_machines(results, program, seed, numbers):
    for number in numbers:
        run_made_smaller(results, program, "a random state machine", syf.random_source(random.Random(f"{seed} fmi {number}")))


def check_doubled(results, program, seed, numbers):
    for number in numbers:
        run_made_smaller(results, program, "a machine with doubled states", doubled(random.Random(f"{seed} doubled {number}")).encode())


def check_cut(results, program, texts):
    with Room() as room:
        for text in texts:
            room.write({"s.fsm": text})
            got, wanted = room.run(program, WORDS), second(WORDS, {"s.fsm": text})
            results.note("a text that is cut or changed", agrees(got, wanted), f"came to {shown(*got)}, wanted {wanted} for {text!r}")


# ---- large ones, and each limit


def counter(count):
    """Each state leads to the one behind it where i is 1, and else to itself; the last alone shows 1."""
    states = [f"s{k}" for k in range(count)]
    steps = [(state, states[(k + 1) % count]) for k, state in enumerate(states)]
    branches = "".join(f"when {state} => if i then ns <= {after}; else ns <= {state}; end if;\n" for state, after in steps)
    body = f"o <= '0';\ncase cs is\n{branches}end case;\n".replace(f"when {states[-1]} => ", f"when {states[-1]} => o <= '1'; ")
    return syf.text_of(", ".join(states), body, "i : in bit; o : out bit")


def reading(count, condition):
    """Two states that differ under some vectors; the statements read so many bits of v, by this condition."""
    body = f"o <= '0';\nns <= s0;\ncase cs is\nwhen s0 => if {condition} then o <= '1'; ns <= s1; else ns <= s0; end if;\nwhen s1 => ns <= s0;\nend case;\n"
    return syf.text_of("s0, s1", body, f"v : in bit_vector ({count + 7} downto 8); o : out bit")


def limits():
    """For each case what it is, its text, and the line that is wanted, or None where it is read."""
    yield from syf.limits()
    for count in (1, 11, 12, 13, 14, 40, 4000):
        line = f"inputs {count}" if count > MOST_INPUTS else None
        yield f"a condition over {count} bits", reading(count, f"v = {' & '.join(['v(8)'] * count)}"), line
        if count <= 64:
            yield f"a condition of {count} operands", reading(count, " xor ".join(f"v({k + 8})" for k in range(count))), line
            yield f"{count} conditions", reading(count, " then elsif ".join(f"v({k + 8})" for k in range(count))), line
    yield "13 bits, of which one isn't read", reading(13, "v(19 downto 8) = x\"a5f\""), None


def check_limits(results, program):
    for title, text, line in limits():
        if line is None:
            run_made_smaller(results, program, title, text)
        else:
            wanted = second(WORDS, {"s.fsm": text})
            results.note(f"{title} in the second reader", wanted == (9, f"fmi: limit: {line}\n"), wanted)
            compare(results, title, run_in({"s.fsm": text}, program, WORDS), 9, f"fmi: limit: {line}\n".encode(), {"s.fsm": text})


def check_large(results, program):
    for count in (1, 2, 3, 64, 256):
        run_made_smaller(results, program, f"a ring of {count} states", syf.ring(count))
        run_made_smaller(results, program, f"a fork of {count} states", syf.fork(count))
    for count in (2, 17, 64):
        run_made_smaller(results, program, f"a counter of {count} states", counter(count))


def check_examples(results, program):
    """Each example; and its patterns on the data-flow text of what was written: they reset first, so that they hold whatever the codes
    are."""
    for path in sorted(EXAMPLES.glob("*/*.fsm")):
        run_made_smaller(results, program, f"the example {path.name}", path.read_bytes())
        with Room() as room:
            room.write({"s.fsm": path.read_bytes(), "t.pat": path.with_suffix(".pat").read_bytes()})
            for words in (WORDS, ["syf", "r.fsm", "-o", "r"], ["asimut", "r.vbe", "-p", "t.pat"]):
                got = room.run(program, words)
                results.note(f"{words[0]} behind the example {path.name}", got[0] == 0, shown(*got))


def check_words(results, program):
    files = {"s.fsm": syf.text_of()}
    got = run_in(files, program, [b"fmi", b"\xff.fsm", "-o", "r"])
    compare(results, "a word of fmi that is no text", got, 1, TOOLS_LINE.encode(), files)
    got = run_in(files, program, ["fmi", "s.fsm", "-o", "nowhere/r"])
    compare(results, "a state machine in a folder that isn't there", got, 7, b"fmi: file: write fault nowhere/r.fsm\n", files)
    got = run_in(files, program, ["fmi", "s.fsm", "-o", "s"])
    compare(results, "a state machine over its source", got, 0, b"states 1\n", {"s.fsm": fsm_text.text(state_machine(files["s.fsm"])).encode()})


def jobs(program, seed, times):
    yield check_large, (program,)
    yield check_limits, (program,)
    for many, check in ((DOUBLED, check_doubled), (MACHINES, check_machines)):
        numbers = range(many * times)
        for at in range(0, len(numbers), CHUNK):
            yield check, (program, seed, numbers[at : at + CHUNK])
    texts = syf.cut_texts()
    for at in range(0, len(texts), 10 * CHUNK):
        yield check_cut, (program, texts[at : at + 10 * CHUNK])
    yield check_examples, (program,)
    yield check_words, (program,)
