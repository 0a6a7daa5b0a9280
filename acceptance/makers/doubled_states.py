"""A text of a state machine with some of its states doubled, at random: what led to a state leads to any of its copies, and each copy has the
state's branch, by its name beside the state's or by a branch of its own.
"""

import re

from acceptance.makers.random_states import StateMaker


class Doubler:
    def __init__(self, choose, states):
        self.choose = choose
        self.copies = {state: [state] for state in states}
        for k in range(choose.randrange(1, 2 + len(states))):
            self.copies[choose.choice(states)].append(f"t{k}")

    def all(self):
        names = [name for copies in self.copies.values() for name in copies]
        return self.choose.sample(names, len(names)) if self.choose.random() < 0.5 else names

    def leading(self, text):
        """The text with any copies of the states that it gives to the next state."""
        return re.sub(r"ns <= (\w+);", lambda found: f"ns <= {self.choose.choice(self.copies[found[1]])};", text)

    def branches(self, listed, part):
        """The branch of these states, and those of copies that have their own."""
        names, aside = [], []
        for state in listed:
            first, *others = self.choose.sample(self.copies[state], len(self.copies[state]))
            names.append(first)
            for other in others:
                (names if self.choose.random() < 0.5 else aside).append(other)
        for some in (names, *([name] for name in aside)):
            yield f"when {' | '.join(some)} =>\n{self.leading(part)}"

    def case(self, text):
        """What stands between the head of the case and its end."""
        first, *parts = re.split(r"when (.*?) =>\n", text)
        made = [self.leading(first)]
        for listed, part in zip(parts[::2], parts[1::2]):
            made += [f"when others =>\n{self.leading(part)}"] if listed == "others" else self.branches(listed.split(" | "), part)
        return "".join(made)


def any_source(choose):
    """States and text as StateMaker makes them, of which most do the same."""
    while True:
        maker = StateMaker(choose)
        text = maker.source()
        if "case cs is\n" in text:
            return maker.states, text


def telling_source(choose):
    """States and text of a machine whose states often show different bits."""
    states = [f"s{k}" for k in range(choose.choice([2, 3, 4, 5, 6, 8, 11]))]

    def branch():
        shown = choose.choice(["'0'", "'0'", "'1'", "i", "not i", "i and v(0)", "v(1) xor v(0)"])
        part = f"if {choose.choice(['i', 'not i', 'v(1)', 'i nor v(0)'])} then\nns <= {choose.choice(states)};\n"
        if choose.random() < 0.5:
            part += f"elsif v = \"{choose.choice(['00', '01', '10'])}\" then\nns <= {choose.choice(states)};\n"
        return f"o <= {shown};\n{part}else\nns <= {choose.choice(states)};\nend if;\n"

    left, branches = list(states), ""
    while left and choose.random() < 0.97:
        count = choose.choice([1, 1, 1, 2])
        branches += f"when {' | '.join(left[:count])} =>\n{branch()}"
        left = left[count:]
    if left or choose.random() < 0.2:
        branches += f"when others =>\n{branch()}"
    case = f"case cs is\n{branches}end case;\n"
    reset = choose.choice(["if r then\no <= '0';\nns <= {0};\nelse\n{1}end if;\n", "{1}if r then\nns <= {0};\nend if;\n", "{1}"])
    body = reset.format(choose.choice(states), case)
    ports = "ck, i, r : in bit; v : in bit_vector (0 to 1); o : out bit"
    head = f"entity made is port ({ports}); end made;\narchitecture states of made is\ntype state is ({', '.join(states)});\nsignal cs, ns : state;\n"
    pragmas = "-- pragma CURRENT_STATE cs\n-- pragma NEXT_STATE ns\n-- pragma CLOCK ck\n"
    end = "process begin\nif ck and not ck'stable then cs <= ns; end if;\nend process;\nend;\n"
    return states, f"{head}{pragmas}begin\nprocess begin\n{body}end process;\n{end}"


def doubled(choose):
    """A random text with doubled states."""
    states, text = choose.choice([any_source, telling_source, telling_source])(choose)
    made = Doubler(choose, states)
    head, inside, tail = re.fullmatch(r"(.*case cs is\n)(.*)(end case;.*)", text, re.DOTALL).groups()
    head = re.sub(r"type state is \(.*?\)", f"type state is ({', '.join(made.all())})", head)
    return made.leading(head) + made.case(inside) + made.leading(tail)
