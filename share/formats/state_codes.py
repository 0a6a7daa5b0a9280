"""A second encoder of states: the codes of `-e o`, `r` and `j`, written from docs/formats/state-machines.md alone.

A code is a list of bits, bit 0 first. `leads` says of two states whether the branch of the first assigns the second to the next state.
"""

MASK = 2**64 - 1


def rotated(state):
    """The word of a state of PCG32: the upper bits folded down, turned by the topmost five."""
    word = ((state >> 18 ^ state) >> 27) & 0xFFFFFFFF
    turn = state >> 59
    return (word >> turn | word << (32 - turn)) & 0xFFFFFFFF


def seeded_words(seed):
    """Four words by which a number seeds the generator: each time the state moves on first."""
    state = seed
    while True:
        state = (state * 0x5851F42D4C957F2D + 0xA17654E46FBE17F3) & MASK
        yield rotated(state)


def words(seed):
    """The words of PCG32 that this number seeds."""
    first = seeded_words(seed)
    a, b, c, d = (next(first) for _ in range(4))
    increment = (c | d << 32) | 1
    state = ((a | b << 32) + increment) & MASK
    state = (state * 6364136223846793005 + increment) & MASK
    while True:
        yield rotated(state)
        state = (state * 6364136223846793005 + increment) & MASK


def width(count):
    bits = 0
    while 2**bits < count:
        bits += 1
    return bits


def numbered(numbers):
    bits = width(len(numbers))
    return [[number >> k & 1 for k in range(bits)] for number in numbers]


def one_hot(count):
    return [[int(k == state) for k in range(count)] for state in range(count)]


def shuffled(count, seed):
    numbers, source = list(range(count)), words(seed)
    for place in range(count - 1, 0, -1):
        other = next(source) % (place + 1)
        numbers[place], numbers[other] = numbers[other], numbers[place]
    return numbers


def adjacent(count, leads):
    beside = [[] for _ in range(count)]
    for s in range(count):
        for t in range(count):
            if s != t and leads(s, t):
                beside[s].append(t)
                beside[t].append(s)
    numbers = list(range(count))

    def cost(s, t):
        """What the pairs cost that have one of the two; those that have both count twice, before an exchange and behind it."""
        return sum((numbers[x] ^ numbers[y]).bit_count() for x in (s, t) for y in beside[x])

    def exchange_once():
        for s in range(count):
            for t in range(s + 1, count):
                before = cost(s, t)
                numbers[s], numbers[t] = numbers[t], numbers[s]
                if cost(s, t) < before:
                    return True
                numbers[s], numbers[t] = numbers[t], numbers[s]
        return False

    while exchange_once():
        pass
    return numbers


def codes(count, style, seed, leads):
    if style == "o":
        return one_hot(count)
    return numbered(shuffled(count, seed) if style == "r" else adjacent(count, leads))


def code_lines(states, codes):
    return "".join(f"code {state} {''.join(map(str, reversed(code))) or '-'}\n" for state, code in zip(states, codes))
