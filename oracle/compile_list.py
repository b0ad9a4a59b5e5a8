"""The last part of crates/compile_test/stdin, at the code limit and about far branches (document 02, L1): oracle/store writes it, with the oracle's answers.
The list's first lines say how a case is written."""

from common import ROOT, SHEET, functions_of, stop

LIST = ROOT / "crates/compile_test/stdin"
WRITTEN = "# The rest is written by oracle/store: programs of oracle/far.py with the oracle's answers.\n"
CHUNK, FAR = 64, 8192                               # what is written as a repetition: so much at least, of what stands at most so far back


def parts(text):
    """The text as strings, and as (many, back) for so many bytes that are each the one `back` before it."""
    found, start, at = [], 0, 0
    while at < len(text):
        before = text.rfind(text[at:at + CHUNK], max(0, at - FAR), at + CHUNK - 1) if at + CHUNK <= len(text) else -1
        if before < 0:
            at += 1
            continue
        back, end = at - before, at
        while end < len(text) and text[end] == text[end - back]:
            end += 1
        found += [text[start:at], (end - at, back)]
        start = at = end
    return [*found, text[start:]]


def written(key, text):
    """The text's lines in the list."""
    lines = []
    for part in parts(text):
        if isinstance(part, tuple):
            lines.append(f"*{part[0]},{part[1]}")
        elif part:
            lines += [key + line for line in part.removesuffix("\n").split("\n")]
            lines += [] if part.endswith("\n") else ["-"]
    return lines


def answered(listing):
    """The call's answer in the list's form, from the listing's."""
    first, *lines = listing.splitlines()
    number, place, *rest = first.split(",")
    passes = number == "0"
    code = "".join("," + line.split(",", 2)[2] for line in lines if line.startswith("b"))
    constants = [f"k,{int(line[2:]) % 2**32}" for line in lines if line.startswith("k")]
    entries = [line for line in lines if line.startswith("l")]
    return "\n".join([f"0,0,{rest[0]}" if passes else f"{number},{place},0", "c" + code, *constants, *entries]) + "\n"


def put(cases):
    """Writes the cases, each a name, rules, a program and its listing, behind the list's other cases; how many it has then, and its bytes."""
    kept, mark, _ = LIST.read_text().partition(WRITTEN)
    if not mark:
        stop(f"{LIST.relative_to(ROOT)} has no line {WRITTEN}")
    ended = lambda lines: "".join(line + "\n" for line in lines)
    texts = [(name, SHEET + "\n", ended(rules), ended(program), answered(listing)) for name, rules, program, listing in cases]
    lines = []
    for name, *given in texts:
        lines += [f"n {name}", *(line for key, text in zip("srp=", given) for line in written(key, text)), "."]
    LIST.write_text(kept + mark + ended(lines))
    listed = functions_of("compile-cases").listed()
    if [(case["name"], *(case[key] for key in "srp=")) for case in listed[len(listed) - len(texts):]] != texts:
        stop("a case of crates/compile_test is not read back as it was meant")
    return len(listed), LIST.stat().st_size
