"""Programs whose branches lead as far as they may, or further (document 02, L1), and those that tell its readings apart, with what 02 says of them."""


def ranges(count, returns=0):
    """A CASE with one arm of so many ranges, 19 bytes of code each and 5 more, and RETURNs in it."""
    return ["S,0,0,1,0", "D,0", f"M,{count},{returns}", *["G,0,1"] * count, *["R,0,0"] * returns]


def program(*statements):
    """Statements, each a list of lines, under their header."""
    return [f"P,1,{len(statements)},0,0", *(line for each in statements for line in each)]


def loop(*statements):
    """A JMP back over the statements."""
    return [f"L,0,0,0,{len(statements)},0", *(line for each in statements for line in each)]


def choice(condition, *statements):
    """A branch forward over the statements: JMP_IF_NOT, or CMP_BR for the comparison of a variable with a constant."""
    return [f"I,0,0,{len(statements)},0", *condition, *(line for each in statements for line in each)]


TRUE = ["B,1"]
COMPARED = ["C,0", "D,0", "K,0"]
RETURN = ["R,0,0"]
EMPTY = ["S,0,0,0,0", "D,0"]                        # LOAD_VAR, POP
REMOVING = "1,2,1,0,0,1,0,1,0"                      # the rule that takes these away


def full(returns):
    return program(*[ranges(100)] * 34, *[RETURN] * returns)


# What 02 says: a name, rules, a program, and how the answer begins.
TELLS = [
    ("a loop around 1,724 ranges", [], program(loop(ranges(1724))), "0,32764,3,2,1"),
    ("a loop around 1,725 ranges", [], program(loop(ranges(1725))), "15,32780"),
    ("a loop around 1,726 ranges, the first one's JMP far too", [], program(loop(ranges(1726))), "15,19"),
    ("-32,768", [], program(loop(ranges(1724, 4))), "0,32768,3,2,1"),
    ("-32,769", [], program(loop(ranges(1724, 5))), "15,32766"),
    ("32,767", [], program(choice(TRUE, ranges(1724, 6))), "0,32771,3,2,1"),
    ("32,768", [], program(choice(TRUE, ranges(1724, 7))), "15,1"),
    ("emitted far", [], program(loop(ranges(1700), *[EMPTY] * 200)), "15,33105"),
    ("emitted far and finished near", [REMOVING], program(loop(ranges(1700), *[EMPTY] * 200)), "0,32312,3,2,1"),
    ("65,535 bytes", [], full(765), "0,65535,3,2,1"),
    ("65,536 bytes", [], full(766), "10,0"),
]


def equal(count, returns):
    """So many statements of 385 bytes of code, all the same, and RETURNs: what can be written by repetition."""
    return [ranges(20)] * count + [RETURN] * returns


# For crates/compile_test, where text is written by repetition: a name, rules and a program.
REPEATED = [
    ("10: 16,385 bytes pass", [], program(*equal(42, 215))),
    ("10: 65,535 bytes pass", [], program(*equal(170, 85))),
    ("10: 65,536 bytes", [], program(*equal(170, 86))),
    ("10: a DUP before the last store", [], program(*equal(170, 79), ["A,0,0,0", "K,0"], ["A,0,0,0", "D,0"])),
    ("15: a JMP of -32,768 passes", [], program(loop(*equal(85, 40)))),
    ("15: a JMP of -32,769", [], program(loop(*equal(85, 41)))),
    ("15: a JMP_IF_NOT of 32,767 passes", [], program(choice(TRUE, *equal(85, 42)))),
    ("15: a JMP_IF_NOT of 32,768", [], program(choice(TRUE, *equal(85, 43)))),
    ("15: a CMP_BR of 32,767 passes", [], program(choice(COMPARED, *equal(85, 42)))),
    ("15: a CMP_BR of 32,768, behind RET", [], program(RETURN, choice(COMPARED, *equal(85, 43)))),
    ("15: emitted far and finished near, a JMP of -32,768 passes", [REMOVING], program(loop(*equal(85, 40), *[EMPTY] * 200))),
    *((f"15: {name}", rules, lines) for name, rules, lines, _ in TELLS[1:3]),
]
