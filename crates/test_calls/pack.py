#!/usr/bin/env python3
"""pack.py VECTORS: writes stdin, data/inputs, stdout and index.tsv beside this file from a folder of vectors.

VECTORS/jobs/jobNN.txt are scripts, whose answers stand behind each call; VECTORS/desk and VECTORS/jobs/deskNN have inputs of the desk program
with their outputs. Taken are the calls and inputs that need nothing that has not landed; left out are calls that this program does not
make, or has no room for. stdin has the own part of the script first, up to the line MARK, whose answers
in stdout stay. So the program is held to the vectors and not to itself.
"""
import pathlib
import sys

MARK = "# What follows is written by pack.py, from scripts of vectors."
LANDED = {"-", "big", "labels", "types", "kinds", "every"}  # what an answer may rest on
SHEETS = ("question", "site", "text")
NUMBERS = ("lent", "ends", "lists")
CALLS = {"sizes", "tally", "action", "allowances", "find", "monotone", "check_text", "picks_text", "build_text", "judge_text", "page_text",
         "check", "picks", "build", "judge", "page", "tries", "window", "check_layers", "build_layers_text", "build_layers",
         "pddl_domain", "pddl_instance", "pddl_plan_text", "pddl_plan", "pddl_read"}
STEPS = {"check", "picks", "page", "tries", "check_layers", "pddl_plan"}  # the calls on lent steps
ROOMS = {"state": 1024, "picks": 64, "steps": 8192, "ends": 512, "out": 16384, "-": 1 << 64}  # as many words, steps and bytes the program has
LENT = 512  # as many numbers that are lent
BUFFERS = {"check_text": "state", "picks_text": "picks state", "build_text": "state steps", "page_text": "- state out", "allowances": "picks",
           "find": "picks", "tries": "state", "action": "-", "check_layers": "state", "build_layers_text": "state steps ends",
           "pddl_domain": "out", "pddl_instance": "out", "pddl_plan_text": "out", "pddl_read": "steps"}  # what the numbers behind a call are the lengths of
JOBS = ("01", "02", "03", "04", "05", "06", "07", "08", "09", "10", "11", "12", "13", "14")  # whose scripts and desk inputs are taken
LATER = {"0342"}  # of the first desk folder: its `type` line was no record then, and stands in the wrong place now


def sheet(lines):
    return [*iter(lambda: next(lines), "."), "."]


def own_calls(lines):
    calls, lines = 0, iter(lines)
    for line in lines:
        if line in SHEETS:
            sheet(lines)
        elif line and line.split()[0] not in ("#", *NUMBERS):
            calls += 1
    return calls


def fits(call, rooms, settings):
    """Whether the program has room for a call's buffers and for what is lent, steps of 32 bits."""
    names = BUFFERS.get(call, BUFFERS.get(call + "_text", "")).split()
    held = all(int(room) <= ROOMS[name] for room, name in zip(rooms, names, strict=True))
    lent = {k: [int(n) for n in settings.get(k, [""])[0].split()[1:]] for k in NUMBERS}
    narrow = call not in STEPS or all(n < 2**32 for n in lent["lent"])
    return held and narrow and all(len(lent[k]) <= LENT for k in NUMBERS)


def packed(lines):
    """The lines of a script that are taken, and the answers; what is set goes before the first call that is taken after it."""
    taken, answers, needs, standing, fresh = [], [], "-", {}, []
    for line in lines:
        word = line.split(" ")[0]
        if line.startswith("# needs "):
            needs = line[8:]
        elif line in SHEETS or word in NUMBERS:
            standing[word] = [line, *(sheet(lines) if line in SHEETS else [])]
            fresh = [w for w in fresh if w != word] + [word]
        elif word in CALLS and LANDED.issuperset(needs.split()):
            required = next(lines)
            if fits(word, line.split()[1:], standing):
                taken += [part for w in fresh for part in standing[w]] + [line]
                answers.append(required)
                fresh = []
    return taken, answers


def desk(folder, letter, rows_left_out):
    """The inputs of a folder behind their headers, the outputs behind their names, and the rows of its index."""
    inputs, outputs, index = b"", b"", ""
    heads, *rows = (line.split("\t") for line in (folder / "index.tsv").read_text().splitlines())
    for row in rows:
        if "needs" in heads and not LANDED.issuperset(row[heads.index("needs")].split()) or row[0] in rows_left_out:
            continue
        case = folder / (row[0] + ".in")
        text, name = case.read_bytes(), letter + row[0][len(letter):]
        assert len(name) == 4 and len(text) < 100000, case
        inputs += name.encode() + b"\t%05d\n" % len(text) + text
        outputs += name.encode() + b"\n" + case.with_suffix(".out").read_bytes()
        index += "\t".join([name, *row[1:]]) + "\n"
    return inputs, outputs, index


if len(sys.argv) != 2:
    sys.exit(__doc__)
here, vectors = pathlib.Path(__file__).parent, pathlib.Path(sys.argv[1])
script = (here / "stdin").read_bytes().decode().split("\n" + MARK + "\n")[0].rstrip("\n").split("\n")
answers = (here / "stdout").read_bytes().split(b"\n")[: own_calls(script)]
script += ["", MARK]
for job in JOBS:
    more, required = packed(iter((vectors / "jobs" / f"job{job}.txt").read_bytes().decode().split("\n")))
    script, answers = script + more, answers + [line.encode() for line in required]
inputs, outputs, index = desk(vectors / "desk", "", LATER)
for letter, job in zip("abcdefgh", [job for job in JOBS if (vectors / "jobs" / f"desk{job}").is_dir()]):
    more = desk(vectors / "jobs" / f"desk{job}", letter, ())
    inputs, outputs, index = inputs + more[0], outputs + more[1], index + more[2]
text = "\n".join(script) + "\n"
assert len(text) < 1048576
(here / "data").mkdir(exist_ok=True)
(here / "data" / "inputs").write_bytes(inputs)
(here / "stdin").write_text(text)
(here / "stdout").write_bytes(b"\n".join(answers) + b"\n" + outputs)
heads = (vectors / "desk" / "index.tsv").read_text().splitlines()[0]
(here / "index.tsv").write_text(heads + "\n" + index)
print(len(answers), "calls,", outputs.count(b"\n") and index.count("\n"), "desk inputs,", len(text), "bytes of script")
