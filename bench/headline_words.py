"""What the pages of headline.py say in words: their heads, the definitions that matter most, the statuses, and what the kit defines."""

# what these rest on is on the page of inputs: which words spell a command, and which texts are a source and a library
LEFT_TO_INPUTS = ["command_of", "flow_of", "AreRead", "IsSourceFor"]

HEAD = """# The headline

The theorem on `flow`, in words and as it is proved, and the definitions that matter most. Whoever agrees with the clauses and with the
definitions on which they rest (the last heading says where all stand), and trusts what [what is tested](TESTED.md) lists under Trusted, need
read no code and no proof: `rt ci` proves the clauses. All is said of runs over files and output in memory.

## In words

Where `flow` ends with 0:

> {words}

And where all files are there, the source is a machine or a state machine within the limits, the others are a library that covers it, no
diagram is over the budget, and no call failed, it does end with 0, or over rows with the net that is stuck, or out of memory.

## As clauses

{clauses}
`.old` is before the call and `.new` after it. `S.seen` and `T.seen` are what a contract sees of files and of output: every byte in memory, and
nothing over the operating system. `flow_in` reads the words as a command `c` of `flow`, and of other words nothing is said. `Ends` is what
the comment above `lays` says.
"""

MATTERS = """## The {many} definitions that matter most

In the order in which to read them: a line on each, and where it stands. All others say what words in these mean.
"""

TAIL = """
## The other pages

[The definitions](HEADLINE-DEFINITIONS.md) on which the two clauses rest stand crate by crate, those of the table first, with how to read them.
[The causes](HEADLINE-CAUSES.md) say when each status of `flow` comes and what it leaves, with the evidence of a net that is stuck. Both leave
out which words spell a command, and which bytes are a source and a library: `bench/headline.py` writes a page of it,
`build/HEADLINE-INPUTS.md`, which is long and isn't kept. It goes on from here:
"""

DEFINITIONS = """# The definitions of the headline

Here stands each definition on which the two clauses of [the headline](HEADLINE.md) rest, with its comment, but for what they say of their
inputs: which words spell a command, and which bytes a source and a library, which `bench/headline.py` writes to `build/HEADLINE-INPUTS.md`. The
crates of its front page come first, in its order, then the others, the highest first; in a file what is used stands before what uses it.

How to read it: `f : A → B` gives a name its type, and the lines below it say its value by cases; a `record` holds where each of its fields
does; a `data` holds where one of its cases does; `x ≡ y` is equality, `A × B` and, `A ⊎ B` or, `A → ⊥` not, `(x : A) → B` for all x,
`(x : A) × B` there is an x. `Unit {0}` always holds, and `⊥` never does. Types of the code are shown by their declarations, in Rust; what
contracts see of a list is its items. The cases of a type stand behind its name in small letters, as `status.Memory` is a case of `Status`. Where
a file calls something otherwise, or where several files define one name, a line above the definitions says what is meant: so `Seen` is
`AbstractNetlist`, a netlist as a layout shows it, `InMemory` is `Netlist`, one as the program holds it, and `CellParts` is `Cell` as the code
declares it. `bench/headline.py` writes this page from the files that it names.
"""

CAUSES = """# The causes of `flow`'s statuses

When each status of `flow` comes and what it leaves, from the clauses of the top call, and what a file says of a net that is stuck. Those of
the other tools stand in their crates, which [what is proved](PROVED.md) names. It is read as [the definitions](HEADLINE-DEFINITIONS.md) of
[the headline](HEADLINE.md) are, and has none of those again, nor of those that tell its inputs. That two runs with the same words, over the
same files, have one status, as far as the files tell it, is a law, `one_status` of `flow_run`. `bench/headline.py` writes this page from the files that it names.
"""

INPUTS = """# What the headline says of its inputs

What `docs/HEADLINE.md` rests on beside the definitions of `docs/HEADLINE-DEFINITIONS.md`: which words spell a command of `flow`, which bytes are
a data-flow source or a state machine, its machine and the codes of its states, and which files are a library whose cells pass their checks. It
is read in the same way. `bench/headline.py` writes this page, which isn't kept.
"""

# The definitions that matter most, in reading order, each with its crate and what it says.
FRONT = [
    ("the theorem", [
        ("flow_run", "IsHeadline", "the layout stands whole, and exactly the report on it was printed"),
        ("flow_run", "IsDrawn", "the files were a source and a library; NAME.ap has the bytes of a right layout, and every other file is as it was"),
        ("flow_run", "AreRead", "SOURCE is this machine, which isn't too large; CATAL and the cells' files are this library"),
        ("flow_run", "IsRightLayout", "what a right layout is: all that follows, of one figure, one netlist and one placement"),
    ]),
    ("the netlist of a drawing", [
        ("ap_io", "IsApLines", "which figure the lines of a file say"),
        ("sym_shapes", "Linked", "two shapes are linked: they meet on one metal, one line gives both, or they are connectors of one name"),
        ("sym_shapes", "AreJoined", "two terminals are joined: a chain of links leads from a shape of one to a shape of the other"),
        ("net_meaning", "AbstractNetlist", "a netlist: ports, instances, and the class of each terminal"),
        ("net_meaning", "Extracts", "it is that of a figure: two terminals have one class exactly where they are joined"),
        ("net_meaning", "Breaches", "the list of what breaks a symbolic rule, widths and gaps; a right layout has the empty one"),
    ]),
    ("what it does", [
        ("cell_model", "Function", "what a cell computes: a gate's expression, a flip-flop, another machine, or nothing known"),
        ("net_meaning", "IsWell", "well formed for a machine: its ports, usable cells, the classes of supplies and clock, one driver of any other, its registers"),
        ("machine_core", "Machine", "a source's machine: ports, clock, names, equations and registers"),
        ("machine_core", "Settles", "a machine's values in a cycle, from the contents of its registers and under an input vector"),
        ("net_meaning", "NetSettles", "a netlist's values in a cycle, by the function of each cell"),
        ("net_meaning", "Agrees", "from any contents and for all vectors it has exactly one run; from matched contents its outputs are the machine's"),
        ("flow_run", "AgreesWithStates", "from the code of a state the outputs are those of the state machine; and behind a vector that resets, from any contents"),
    ]),
    ("how good it is", [
        ("flow_run", "IsLeanBy", "few gates, few input pins of a class, and no buffer where it would do without"),
        ("net_tight", "IsTight", "no usable cell could stand for two gates where one pin of the one alone reads the output of the other, and no port shows it"),
        ("flow_netlist", "IsDrivenAs", "its longest path takes so long, and no exchange of one cell for another drive makes that less"),
        ("delay_sta", "IsWorst", "the greatest time of all paths to an output port or to a flip-flop's data pin"),
    ]),
    ("how it is laid out", [
        ("ocp_anneal", "IsGoodPlacement", "rows as asked for, and even; no exchange of neighbours makes the nets shorter, and they are no longer than after the moves"),
        ("flow_run", "IsGridLayout", "the lines of a figure: such a placement, and the wires and vias of nets that were routed in order, each whole"),
        ("grid_core", "IsLeastPath", "a path on free nodes to the net's tree than which none costs less: a step is 1, a via 3"),
    ]),
    ("when it has to come", [
        ("flow_run", "IsFree", "nothing stands in the way of a layout"),
    ]),
]

# The statuses of `flow`, each with when it comes, and the names of what says so: definitions, or their cases.
STATUSES = [
    ("0", "the layout is written and the report is printed", ["IsLaidOut"]),
    ("1", "the words spell no command", ["command_of"]),
    ("2", "the text of SOURCE has a fault", ["no_text"]),
    ("3", "a line of CATAL has a fault, or a cell fails a check", ["no_list", "no_cell"]),
    ("4", "the library has no usable cell of a kind that mapping needs", ["uncovered"]),
    ("5", "the diagram of a root is over the budget", ["over_budget"]),
    ("6", "over rows a net is stuck; NAME_part.ap has the evidence", ["IsStuck", "IsStuckLayout"]),
    ("7", "a file isn't there or can't be read; or what is written or printed can't be", ["Caused", "Left"]),
    ("8", "memory ran out, which may be so at any time", ["Left"]),
    ("9", "a file is too long; or a limit of a text, of CATAL or of a cell; or the source is too large", ["IsTooLong", "no_text", "no_list", "no_cell", "over_size"]),
]

# what the definitions of the kit are, in a few words
KIT = {
    "suc": "the number behind another",
    "zero": "the number 0",
    "new_shape": "a command line that takes no words yet",
    "is_empty": "whether there is none",
    "App": "what a command line takes",
    "Kinds": "the kinds of its words",
    "Row": "an argument of it",
    "Rule": "how an argument is given",
    "fault_of": "why words are refused",
    "first_of": "the first value of an argument",
    "matches_of": "what words come to by a command line",
    "new_rule": "an argument as it is at first",
    "ArgAction": "what giving an argument does",
    "Set": "an argument with a value",
    "SetTrue": "an argument that is there or not",
    "pcg32_seed": "the state that a seed begins",
    "first_words": "the first so many numbers of a generator",
    "pcg32": "the generator PCG32",
    "pcg32_of_seed": "PCG32 begun with a seed",
    "is_at": "whether a key stands at a place",
    "insert_key": "a set with one key more",
    "is_ascii_alphabetic": "a letter of ASCII",
    "is_ascii_digit": "a decimal digit",
    "is_ascii_uppercase": "a capital letter of ASCII",
    "to_ascii_lowercase": "a byte with a capital made small",
    "pointwise": "lists compared item by item",
    "slice_cmp": "the order of lists by their first difference",
    "FinMap": "a finite map",
    "get": "the value of a key of a map, if there is one",
    "insert": "a map with one key set",
    "decimal": "the decimal digits of a number, as bytes",
    "int_max": "the greater of two integers",
    "int_min": "the lesser of two integers",
    "All": "each item of a list has the property",
    "AllPairs": "each two items of a list, in order, have the relation",
    "AllZip": "two lists are equally long, and their items have the relation pair by pair",
    "Contains": "an item stands in a list",
    "ends_with": "whether a list ends with another",
    "filter_map": "what is made of the items of which something is made",
    "find": "the first item that passes",
    "flat_map": "the lists that are made of the items, one after another",
    "list_all": "whether each item passes",
    "list_any": "whether some item passes",
    "prefix_len": "how many items pass before the first that does not",
    "slice_index_or": "the item at a place, or another where there is none",
    "starts_with": "whether a list begins with another",
    "sum_by": "the sum over the items",
    "zip": "pairs of the items of two lists",
    "IsPermutation": "the same items in some order",
    "is_none": "whether there is no value",
    "is_some": "whether there is a value",
    "option_map": "what is made of the value, if there is one",
    "option_or": "the value, or else another option",
    "unwrap_or": "the value, or another where there is none",
    "int_cmp": "the order of two integers",
    "is_eq": "whether two are in no order",
    "is_le": "whether one is not behind the other",
    "is_lt": "whether one is before the other",
    "nat_cmp": "the order of two numbers",
    "ordering_then": "an order, and where it is equal a second one",
    "Bool": "true or false",
    "Err": "a refusal",
    "IfSome": "the value, if there is one, has the property",
    "IsTrue": "it is true",
    "List": "lists",
    "None": "no value",
    "Ok": "an answer",
    "Option": "a value or none",
    "Result": "an answer or a refusal",
    "Some": "a value",
    "bytes_eq": "whether two lists of bytes are equal",
    "codes": "the bytes of a text",
    "count_by": "how many items pass",
    "drop": "a list without its first items",
    "false": "false",
    "filter": "the items that pass",
    "get_or": "the item at a place, or another where there is none",
    "if◌then◌else◌": "one of two values by a test",
    "int_div": "integers divided",
    "int_le": "whether an integer is at most another",
    "length": "how many items a list has",
    "map": "what is made of each item",
    "max": "the greater of two numbers",
    "min": "the lesser of two numbers",
    "nat_eq": "whether two numbers are equal",
    "nat_le": "whether a number is at most another",
    "nat_lt": "whether a number is less than another",
    "neg_ℤ": "an integer with the other sign",
    "negsuc": "a negative integer",
    "not": "the other of true and false",
    "option_and_then": "what is made of the value, which may be nothing",
    "pos": "an integer that is not negative",
    "remove": "a map without a key",
    "replicate": "a list of one item so many times",
    "reverse": "a list from its end",
    "slice_get": "the item at a place, if there is one",
    "slice_index": "the item at a place",
    "slice_range": "the items from a place to another",
    "slice_set": "a list with one item set",
    "sum": "the sum of a list",
    "swap": "a list with two items exchanged",
    "take": "the first items of a list",
    "take_while": "the items before the first that does not pass",
    "true": "true",
    "ℕ": "the numbers 0, 1, 2 and so on",
    "ℤ": "the integers",
    "◌%◌": "remainder",
    "◌&&◌": "both are true",
    "◌*ℤ◌": "product of integers",
    "◌*◌": "product",
    "◌++◌": "one list behind another",
    "◌+ℤ◌": "sum of integers",
    "◌+◌": "sum",
    "◌-ℤ◌": "difference of integers",
    "◌-◌": "difference, and 0 where it would be less",
    "◌/◌": "quotient, rounded down",
    "◌<ℤ◌": "less, of integers",
    "◌<◌": "less",
    "◌==◌": "whether two numbers are equal",
    "◌^◌": "power",
    "◌||◌": "one of two is true",
    "◌↔◌": "each of two statements follows from the other",
    "◌∷◌": "an item before a list",
    "◌≡◌": "equality",
    "◌≢◌": "not equal",
    "◌≤ℤ◌": "at most, of integers",
    "◌≤◌": "at most",
    "◌⊎◌": "one of two statements",
    "is_utf8": "whether bytes are text in UTF-8",
    "Ordering": "before, equal or behind",
    "Equal": "equal",
    "Greater": "behind",
    "Less": "before",
    "[]": "the list without items",
    "OnOk": "where it is an answer, the statement holds",
    "IfOk": "the answer, if there is one, has the property",
    "IfErr": "the refusal, if there is one, has the property",
    "IsNone": "there is no value",
    "IsSome": "there is a value",
}
