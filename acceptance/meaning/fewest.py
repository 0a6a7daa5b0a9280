"""The state machine with the fewest states, written from docs/formats/state-machines.md ("The fewest states"). Pairs of states that
vectors tell apart are marked, round by round, until no more are; what isn't marked becomes one.

All vectors of the inputs that the statements read are walked at once: words have a bit for each of them.
"""

from share.formats.state_walk import StateMachine, branch
from share.formats.vbe_oracle import reads

MOST_INPUTS = 12


def inputs_read(body):
    """The bits that conditions and values read."""
    found = set()
    for s in body:
        if s[0] == "out":
            found |= reads(s[2])
        elif s[0] == "if":
            found = found.union(*(reads(condition) | inputs_read(part) for condition, part in s[1]), inputs_read(s[2] or []))
        elif s[0] == "case":
            found = found.union(*(inputs_read(part) for _, part in s[1]), inputs_read(s[2] or []))
    return found


# ---- steps under all vectors


def word(f, known, every):
    """A formula as a word."""
    if isinstance(f, int):
        return every * f
    if f[0] == "bit":
        return known[f[1]]
    if f[0] == "not":
        return every ^ word(f[1], known, every)
    first, *others = (word(part, known, every) for part in f[2])
    for other in others:
        joined = first ^ other if f[1] in ("xor", "xnor") else first | other if f[1] in ("or", "nor") else first & other
        first = every ^ joined if f[1] in ("nand", "nor", "xnor") else joined
    return first


def all_vectors(bits):
    """A word for each bit, and that of all vectors."""
    every = (1 << (1 << len(bits))) - 1
    return {bit: every // ((1 << (1 << k)) + 1) << (1 << k) for k, bit in enumerate(sorted(bits))}, every


class Steps:
    """What a state does: for each output bit the vectors under which it is 1, and for each state those that lead to it."""

    def __init__(self, machine, state, known, every):
        self.state, self.known, self.every = state, known, every
        self.outputs, self.leads = dict.fromkeys(machine.outputs, 0), {}
        self.walk(machine.body, every)

    def walk(self, body, taken):
        for s in body:
            if s[0] == "out":
                self.outputs[s[1]] = self.outputs[s[1]] & ~taken | word(s[2], self.known, self.every) & taken
            elif s[0] == "next":
                self.leads = {state: there & ~taken for state, there in self.leads.items()}
                self.leads[s[1]] = self.leads.get(s[1], 0) | taken
            elif s[0] == "if":
                self.walk_parts(s[1], s[2] or [], taken)
            else:
                self.walk(branch(s, self.state), taken)

    def walk_parts(self, parts, last, taken):
        for condition, part in parts:
            asked = word(condition, self.known, self.every)
            self.walk(part, taken & asked)
            taken &= ~asked
        self.walk(last, taken)


def steps_of(machine):
    known, every = all_vectors(inputs_read(machine.body))
    return [Steps(machine, state, known, every) for state in range(len(machine.states))]


def step_faults(given, made, new):
    """Where a machine doesn't show what another shows, or lead to where that leads, under some vector: `new` has for each state of the
    given machine one of the machine that was made."""
    known, every = all_vectors(inputs_read(given.body) | inputs_read(made.body))
    steps = [Steps(made, state, known, every) for state in range(len(made.states))]
    for state, name in enumerate(given.states):
        one, other = Steps(given, state, known, every), steps[new[state]]
        leads = dict.fromkeys(range(len(made.states)), 0)
        for after, there in one.leads.items():
            leads[new[after]] |= there
        if one.outputs != other.outputs or any(there != other.leads.get(after, 0) for after, there in leads.items()):
            yield f"a step from {name}"


# ---- which states do the same


def pairs_behind(one, other):
    """The pairs of different states to which some vector leads."""
    for s, of_one in one.leads.items():
        for t, of_other in other.leads.items():
            if s != t and of_one & of_other:
                yield frozenset((s, t))


def pairs_apart(steps):
    """The pairs of states that some vectors tell apart."""
    behind = {frozenset((s, t)): set(pairs_behind(steps[s], steps[t])) for t in range(len(steps)) for s in range(t)}
    marked = {pair for pair in behind if len({tuple(steps[s].outputs.items()) for s in pair}) == 2}
    while True:
        more = {pair for pair in behind if pair not in marked and behind[pair] & marked}
        if not more:
            return marked
        marked |= more


def least_alike(machine):
    """For each state the least one that does the same for all vectors."""
    apart = pairs_apart(steps_of(machine))
    return [next(s for s in range(t + 1) if s == t or frozenset((s, t)) not in apart) for t in range(len(machine.states))]


# ---- the machine with fewest states


def merged(body, new, kept):
    """The statements with the new states: `new` has that of each old one, `kept` the old ones that stay."""
    for s in body:
        if s[0] == "next":
            yield "next", new[s[1]]
        elif s[0] == "if":
            yield "if", [(condition, list(merged(part, new, kept))) for condition, part in s[1]], last_of(s[2], new, kept)
        elif s[0] == "case":
            listed = [([new[state] for state in states if state in kept], part) for states, part in s[1]]
            yield "case", [(states, list(merged(part, new, kept))) for states, part in listed if states], last_of(s[2], new, kept)
        else:
            yield s


def last_of(body, new, kept):
    return None if body is None else list(merged(body, new, kept))


def fewest(machine):
    """The machine with the fewest states, and the new state of each old one."""
    least = least_alike(machine)
    kept = sorted(set(least))
    new = [kept.index(state) for state in least]
    states = [machine.states[state] for state in kept]
    return StateMachine(machine.name, machine.ports, machine.clock, states, list(merged(machine.body, new, set(kept)))), new
