#!/usr/bin/env python3
"""Holds the program carry to docs/SAVED.md. Called by tests/carry/run: check.py CARRY SIGVORT MEDDLE

CARRY and SIGVORT are the programs, MEDDLE is the library made of meddle.c. Each check has a folder of its own, where FILE is the file that carry is given.
The first thing that is otherwise than it should be ends the run.
"""
import os
import random
import re
import resource
import signal
import subprocess
import sys
import tempfile

CARRY, SIGVORT, MEDDLE = (os.path.abspath(path) for path in sys.argv[1:4])
FILE = "day.session"
ASIDE = re.compile(re.escape(FILE) + r"\.[a-z]{8}\.part")
NOBODY = 65534
USAGE = "usage: carry new FILE < SHEET\n       carry on FILE < CALLS"
RUNS = 0
TOLD = set()


def wrong(what, *more):
    print("carry:", what)
    for text in more:
        print(f"  {text!r}"[:2000])
    sys.exit(1)


def run(words, sheet=b"", meddle=None, program=None, **how):
    """What a run of carry prints on standard output and on standard error, and its status."""
    global RUNS
    RUNS += 1
    environment = dict(os.environ, **(dict(meddle, LD_PRELOAD=MEDDLE) if meddle else {}))
    how.setdefault("stdout", subprocess.PIPE)
    source = {"stdin": how.pop("stdin")} if "stdin" in how else {"input": sheet}
    done = subprocess.run([program or CARRY, *words], stderr=subprocess.PIPE, env=environment, check=False, **source, **how)
    return done.stdout or b"", done.stderr, done.returncode


def goes(words, sheet=b"", **how):
    """The answers of a run that has nothing to tell."""
    answers, told, status = run(words, sheet, **how)
    if told or status != 0:
        wrong(f"carry {words} tells of something, or ends with {status}", told)
    return answers


def fails(words, line, sheet=b"", printed=b"", **how):
    """A run that tells one line, prints no more than this, and leaves every file as it was."""
    before = files()
    answers, told, status = run(words, sheet, **how)
    TOLD.add(line)
    if told != line.encode() + b"\n" or answers != printed or status != 0:
        wrong(f"carry {words} tells or prints otherwise, or ends with {status}", line, told, answers)
    if files() != before:
        wrong(f"carry {words} fails and changes a file", line, before, files())


def files():
    """The names in the folder, each with its kind and permissions and what it has."""
    found = {}
    for name in os.listdir("."):
        kind = os.lstat(name).st_mode
        found[name] = (kind, open(name, "rb").read() if os.path.isfile(name) else None)
    return found


def read(name=FILE):
    with open(name, "rb") as file:
        return file.read()


def write(text, name=FILE):
    with open(name, "wb") as file:
        file.write(text)


def gone(name=FILE):
    if os.path.lexists(name):
        os.remove(name)


def expect(found, wanted, what):
    if found != wanted:
        wrong(what, found, wanted)


# ---- sheets and texts


def tabbed(*lines):
    return b"".join("\t".join(map(str, line)).encode() + b"\n" for line in lines)


def heap_text(n, clauses=(), trail=(), curr=0):
    """The text of a heap session that is fresh but for its trail, all of it at level 0."""
    assigned = {code // 2 for code in trail}
    return tabbed(
        ["n", n, "vsids"], *(["c", *clause] for clause in clauses), ["t", *trail], ["l", *(0 for _ in trail)], ["r", *("-" for _ in trail)], ["q", curr],
        ["h", *(v for v in range(n) if v not in assigned)], ["a", *["0" * 16] * n], ["o", *[1] * n], ["w", "3ff0000000000000", "3fee666666666666"],
    )


def list_text(n, curr=0):
    """The text of a fresh list session without clauses."""
    return tabbed(["n", n, "vmtf"], ["t"], ["l"], ["r"], ["q", curr], ["v", *range(n)], ["s", *range(n, 0, -1)], ["k", n + 1], ["f", 0 if n else "-"])


def long_sheet(mode, seed):
    """The lines of a sheet with calls of every kind, some of them refused."""
    draw = random.Random(seed)
    n = 14
    var = lambda: draw.randrange(n + 1) if draw.random() < 0.1 else draw.randrange(n)
    lines = [["n", n, mode]]
    lines += [["c", *(draw.randrange(2 * n) for _ in range(draw.randrange(5)))] for _ in range(9)]
    calls = {
        "b": lambda: [var()], "y": lambda: [], "i": lambda: [var()], "o": lambda: [var()], "u": lambda: [2 * var() + draw.randrange(2)], "r": lambda: [var()],
        "w": lambda: [draw.choice(["3fe0000000000000", "3fee666666666666", "3ff0000000000000", "7ff8000000000000"])],
        "g": lambda: [draw.choice([0, 1, 1, 2])], "e": lambda: [2 * var() + draw.randrange(2), draw.choice(["-", 0, 3, 8, 9])],
        "k": lambda: [draw.randrange(6)], "f": lambda: [var() for _ in range(draw.randrange(5))], "c": lambda: [1], "z": lambda: [],
    }
    often = "bbyiogggggeeeukkrfffwcz"
    while len(lines) < 150:
        letter = draw.choice(often)
        lines.append([letter, *calls[letter]()])
    return [tabbed(line) for line in lines]


def desk(sheet):
    return subprocess.run([SIGVORT], input=sheet, stdout=subprocess.PIPE, check=True).stdout


def renumbered(answers, by):
    """Answer lines, with so much added to their numbers."""
    return [b"\t".join([str(int(number) + by).encode(), *rest]) for number, *rest in (line.split(b"\t") for line in answers.splitlines(True))]


# ---- the checks, each in an empty folder


def pages():
    """The examples of the pages, in their order: a sheet begins a session, a text is one, calls carry on."""
    for page in "docs/SHEET.md", "docs/SAVED.md":
        shown = open(os.path.join(ROOT, page), encoding="utf-8").read()
        for word, block in re.findall(r"^```(sheet|saved|carried)\n(.*?)^```$", shown, re.M | re.S):
            lines = [line.partition("→") for line in block.splitlines()]
            sheet = "".join(re.sub(" *$", "", line).replace("|", "\t") + "\n" for line, _, _ in lines).encode()
            answers = "".join(answer.strip().replace("|", "\t") + "\n" for _, arrow, answer in lines if arrow).encode()
            if word == "saved":
                write(sheet)
                continue
            if word == "sheet":
                gone()
            found, told, _ = run(["new" if word == "sheet" else "on", FILE], sheet)
            expect(found, answers, f"a sheet of {page} is answered otherwise")
            opened = word == "carried" or re.match(rb"1\t0\t", answers)
            expect((bool(told), os.path.exists(FILE)), (not opened, bool(opened)), f"a sheet of {page} is told of, or its session saved, otherwise")


def shown():
    """The commands of the pages, and the lines that docs/SAVED.md has on standard error, once the other checks have met them."""
    sheet = read(os.path.join(ROOT, "examples/worked.sheet"))
    for page in "README.md", "docs/SAVED.md":
        text = open(os.path.join(ROOT, page), encoding="utf-8").read()
        block = re.search(rf"carry new {FILE} < examples/worked.sheet\n    printf '(.*)' \| \$carry on {FILE}\n\n((?:    .*\n)+)", text)
        gone()
        expect(goes(["new", FILE], sheet), desk(sheet), "the worked sheet is answered otherwise")
        calls = block[1].replace("\\t", "\t").replace("\\n", "\n").encode()
        found = goes(["on", FILE], calls).decode().split()
        expect(found, block[2].split(), f"the calls of {page} are answered otherwise")
    lines = set(re.findall("^    (carry: .*)$", text, re.M))
    expect(sorted(lines - TOLD), [], "docs/SAVED.md has lines that were not told")
    TOLD.remove(USAGE)
    expect((kinds(TOLD - lines) - kinds(lines), USAGE.replace("\n", "\n    ") in text), (set(), True), "lines were told that docs/SAVED.md does not have")
    script = re.search("^    if told=.*?^    fi$", text, re.M | re.S)[0]
    for calls, meddle, wanted in (b"g\t1\n", "", b"saved"), (b"y" * 32769, "", b"look at"), (b"g\t1\n", f"CARRY_KILL=9 LD_PRELOAD={MEDDLE} ", b"look at"):
        write(calls, "calls")
        found = run(["-c", script.replace("$carry", meddle + CARRY)], program="sh")[0]
        expect(found.startswith(wanted), True, "the script of docs/SAVED.md ends otherwise")


def kinds(lines):
    """Lines that were told, without the name of the file and without the system's words."""
    words = "|".join(re.escape(os.strerror(number)) for number in range(1, 134))
    names = "standard input|standard output|FILE"
    return {re.sub(f": ({words})$", "", re.sub(f"^carry: (?!({names}):).*?:", f"carry: {FILE}:", line)) for line in lines}


def cuts():
    """A long sheet of each mode, cut in two at every line. A line that is no call and changes nothing, put where the sheet is cut, ends its clauses there."""
    for mode in "vsids", "vmtf":
        lines = long_sheet(mode, mode)
        whole = desk(b"".join(lines)).splitlines(True)
        gone()
        expect(goes(["new", FILE], b"".join(lines)), b"".join(whole), "a sheet is answered otherwise by the desk")
        text = read()
        for i in range(1, len(lines) + 1):
            first, rest = b"".join(lines[:i]), b"".join(lines[i:])
            wanted = desk(first + b"z\n" + rest).splitlines(True)
            del wanted[i]
            gone()
            found = goes(["new", FILE], first).splitlines(True) + renumbered(goes(["on", FILE], rest), i)
            expect(found, wanted[:i] + renumbered(b"".join(wanted[i:]), -1), f"a sheet of mode {mode}, cut behind line {i}, is answered otherwise")
            if not rest.startswith(b"c"):
                expect((found, read()), (whole, text), f"a sheet of mode {mode}, cut behind line {i}, differs from the whole")


def parts():
    """The same sheets in three parts, and line by line."""
    draw = random.Random(3)
    for mode in "vsids", "vmtf":
        lines = long_sheet(mode, mode)
        goes(["new", "whole"], b"".join(lines))
        whole = desk(b"".join(lines)).splitlines(True)
        splits = [sorted([10, *draw.sample(range(11, len(lines)), 2)]) for _ in range(10)] + [list(range(10, len(lines)))]
        for split in splits:
            found = goes(["new", FILE], b"".join(lines[:split[0]])).splitlines(True)
            for i, j in zip(split, [*split[1:], len(lines)]):
                found += renumbered(goes(["on", FILE], b"".join(lines[i:j])), i)
            expect((found, read()), (whole, read("whole")), f"a sheet of mode {mode}, cut behind lines {split}, differs from the whole")
            gone()
        gone("whole")


def fresh():
    """Sheets without calls, without lines and without a session, and those at the limit of length."""
    for sheet, text in (b"n\t3\tvsids\n", heap_text(3)), (b"n\t3\tvmtf\n", list_text(3)), (b"n\t0\tvsids\n", heap_text(0)), (b"n\t0\tvmtf\n", list_text(0)), \
            (b"n\t2\tvsids\nc\t1\t3\nc\n", heap_text(2, [[1, 3], []])), (b"n\t2048\tvsids\n", heap_text(2048)), (b"n\t3\tvsids\ng\t1", heap_text(3)):
        goes(["new", FILE], sheet)
        expect(read(), text, f"the sheet {sheet!r} saves another session")
        for empty in b"", b"g\t1":
            expect(goes(["on", FILE], empty), b"", "no line is answered")
            expect(read(), text, "a sheet without lines changes the session")
        gone()
    unsaved = f"carry: {FILE}: not saved: the sheet opens no session"
    fails(["new", FILE], unsaved)
    fails(["new", FILE], unsaved, b"n\t3\tvsids")
    fails(["new", FILE], unsaved, b"n\t2049\tvsids\ng\t1\n", b"1\t4\t-\n")
    fails(["new", FILE], unsaved, b"g\t1\n", b"1\t3\t-\n")
    most = b"n\t1\tvsids\n" + b"y\n" * 16378 + b"yy"
    long = f"carry: standard input: refused with 1: a sheet has at most 32,768 bytes"
    fails(["new", FILE], long, most + b"y")
    expect((len(most), len(goes(["new", FILE], most).splitlines())), (32768, 16379), "the longest sheet has another length or other answers")
    fails(["on", FILE], long, most + b"y")
    fails(["on", FILE], long, most * 40)
    expect(len(goes(["on", FILE], b"\n" * 32768).splitlines()), 32768, "the most lines have other answers")


def refused():
    """Files that are no saved session of this release, each told with its refusal; the first that fits."""
    form = "refused with 15: not a saved session: a line is missing, out of its place or not of its form"
    many = "refused with 4: more than 2,048 variables"
    clauses = "refused with 6: more than 2,048 clauses or 8,192 literals, or a literal of a variable that is not there"
    state = "refused with 7: not a good session"
    good = heap_text(3, [[1, 3]])
    texts = [
        (b"", form), (b"\n", form), (b"an order\n", form), (good[:-1], form), (good + b"\n", form), (good + good, form), (b"\0" * 1048576, form),
        (good.replace(b"n\t3", b"n\t03"), form), (good.upper(), form), (good.replace(b"q\t0\n", b""), form), (list_text(3).replace(b"vmtf", b"vsids"), form),
        (heap_text(2049), many), (heap_text(4096), many), (list_text(2049), many), (list_text(4096), many), (heap_text(20000), many),
        (heap_text(4096)[:-1], form), (heap_text(4096, [[9999]] * 3000, curr=1), many),
        (heap_text(3, [[1]] * 2049), clauses), (heap_text(3, [[1] * 8193]), clauses), (heap_text(3, [[6]]), clauses), (heap_text(3, [[6]], curr=1), clauses),
        (heap_text(3, curr=1), state), (list_text(3, curr=1), state), (heap_text(3, trail=[1, 1]), state), (heap_text(3, trail=[6]), state),
    ]
    for text, line in texts:
        write(text)
        fails(["on", FILE], f"carry: {FILE}: {line}", b"g\t1\n")
        fails(["new", FILE], f"carry: {FILE}: not saved: it is there already", b"n\t1\tvsids\n")
    write(b"\0" * 1048577)
    fails(["on", FILE], f"carry: {FILE}: not read: longer than 1,048,576 bytes, which no session of this release needs")
    for text in heap_text(2048, [[4095] * 4] * 2048), heap_text(3, trail=[1], curr=1):
        write(text)
        goes(["on", FILE])
        expect(read(), text, "a good session is saved otherwise")


def names():
    """Names of the file: taken, missing, in other folders, too long; and words that are none of the program's."""
    taken = "not saved: it is there already"
    os.mkdir("folder")
    os.symlink("nowhere", "link")
    os.symlink(b"\xff", "odd")
    os.mkfifo("pipe")
    for name in "folder", "link", "odd", "pipe", ".", "/":
        fails(["new", name], f"carry: {name}: {taken}", b"n\t1\tvsids\n")
    fails(["on", "folder"], "carry: folder: not read: Is a directory")
    for name in FILE, "link", "odd", "no/day", "folder/day":
        fails(["on", name], f"carry: {name}: not read: No such file or directory")
    answers = desk(b"n\t1\tvsids\n")
    fails(["new", "no/day"], "carry: no/day: not saved: No such file or directory", b"n\t1\tvsids\n", answers)
    fails(["new", "link/day"], "carry: link/day: not saved: No such file or directory", b"n\t1\tvsids\n", answers)
    fails(["new", "x" * 300], "carry: " + "x" * 300 + ": not saved: File name too long", b"n\t1\tvsids\n")
    fails(["new", "x/" * 2100], "carry: FILE: the name is too long", b"n\t1\tvsids\n")
    for word in "new", "on":
        fails([word, b"\xff"], "carry: FILE: the name is not UTF-8", b"n\t1\tvsids\n")
    fails(["old", b"\xff"], USAGE)
    for name in "folder/day", os.path.abspath("day"), "./two words\n", "-":
        expect(goes(["new", name], b"n\t1\tvsids\n"), answers, "a new session in another folder is answered otherwise")
        expect(goes(["on", name], b"g\t1\n"), b"1\t0\t0\n", "a session in another folder is answered otherwise")
        expect(read(name), heap_text(1).replace(b"t\nl\nr\n", b"t\t1\nl\t1\nr\t-\n").replace(b"h\t0", b"h"), "a session in another folder is saved otherwise")
        gone(name)
    for words in [], ["new"], ["on"], ["new", ""], ["on", ""], ["new", FILE, FILE], ["on", FILE, ""], ["old", FILE], ["NEW", FILE], ["newly", FILE], ["n", FILE], \
            ["", FILE], ["--help"], [FILE, "new"]:
        fails(words, USAGE, b"n\t1\tvsids\n")


def permissions():
    """A new file has the usual permissions; one that replaces another has those of the old one, and its owner and group, or its group alone."""
    for mask in 0o022, 0o077, 0o002:
        goes(["new", FILE], b"n\t1\tvsids\n", umask=mask)
        expect(os.stat(FILE).st_mode & 0o777, 0o666 & ~mask, "a new file has other permissions")
        gone()
    goes(["new", FILE], b"n\t1\tvsids\n")
    root = os.getuid() == 0
    if root:
        os.chown(FILE, NOBODY, NOBODY)
    for mode in 0o600, 0o664, 0o444, 0o640:
        os.chmod(FILE, mode)
        goes(["on", FILE], b"b\t0\n")
        found = os.stat(FILE)
        expect((found.st_mode & 0o7777, found.st_uid), (mode, NOBODY if root else os.getuid()), "a file that replaces another has other permissions")
    if root:
        os.chmod(".", 0o777)
        for groups, group in ([NOBODY], NOBODY), ([], NOBODY - 2):
            os.chown(FILE, NOBODY, NOBODY)
            os.chmod(FILE, 0o664)
            goes(["on", FILE], b"b\t0\n", user=NOBODY - 1, group=NOBODY - 2, extra_groups=groups)
            found = os.stat(FILE)
            expect((found.st_mode & 0o7777, found.st_uid, found.st_gid), (0o664, NOBODY - 1, group), "a file of somebody else is replaced otherwise")


def unwritable():
    """A folder in which nothing can be written, for somebody who is not root."""
    goes(["new", FILE], b"n\t1\tvsids\n")
    os.chmod(".", 0o555)
    other = dict(user=NOBODY, group=NOBODY, extra_groups=[]) if os.getuid() == 0 else {}
    fails(["on", FILE], f"carry: {FILE}: not saved: Permission denied", b"g\t1\n", b"1\t0\t0\n", **other)
    fails(["new", "other"], "carry: other: not saved: Permission denied", b"n\t1\tvsids\n", b"1\t0\t-\n", **other)
    os.chmod(FILE, 0)
    if other:
        fails(["on", FILE], f"carry: {FILE}: not read: Permission denied", b"g\t1\n", **other)
    os.chmod(".", 0o755)


def full():
    """A disk that is full for the text, or for the answers; an input that cannot be read; no memory for the buffers."""
    def small():
        signal.signal(signal.SIGXFSZ, signal.SIG_IGN)
        resource.setrlimit(resource.RLIMIT_FSIZE, (50, 50))

    answers = b"1\t0\t-\n"
    sheet = b"n\t1\tvsids\n"
    fails(["new", FILE], f"carry: {FILE}: not saved: File too large", sheet, answers, preexec_fn=small)
    unprinted = "carry: standard output: not written, and nothing is saved: "
    with open("/dev/full", "wb") as device:
        fails(["new", FILE], unprinted + "No space left on device", sheet, stdout=device)
    fails(["new", FILE], unprinted + "Bad file descriptor", sheet, preexec_fn=lambda: os.close(1))
    fails(["new", FILE], "carry: standard input: not read: Bad file descriptor", preexec_fn=lambda: os.close(0))
    goes(["new", FILE], sheet)
    fails(["on", FILE], f"carry: {FILE}: not saved: File too large", b"g\t1\n", b"1\t0\t0\n", preexec_fn=small)
    with open("/dev/full", "wb") as device:
        fails(["on", FILE], unprinted + "No space left on device", b"g\t1\n", stdout=device)
    fails(["on", FILE], "carry: standard input: not read: Bad file descriptor", preexec_fn=lambda: os.close(0))
    folder = os.open(".", os.O_RDONLY)
    fails(["on", FILE], "carry: standard input: not read: Is a directory", stdin=folder)
    os.close(folder)
    expect(goes(["on", FILE], b"g\t1\n", preexec_fn=lambda: os.close(2)), b"1\t0\t0\n", "without standard error a sheet is answered otherwise")
    bare = dict(preexec_fn=lambda: resource.setrlimit(resource.RLIMIT_DATA, (2**19, 2**19)))
    fails(["on", FILE], f"carry: {FILE}: not saved: out of memory", b"g\t1\n", **bare)
    gone()
    fails(["new", FILE], f"carry: {FILE}: not saved: out of memory", sheet, **bare)


def unread():
    """Answers that nobody reads: the program tells so, whatever SIGPIPE is to do. Every file stays as it was."""
    end, pipe = os.pipe()
    os.close(end)
    unprinted = "carry: standard output: not written, and nothing is saved: Broken pipe"
    for words, sheet, text in (["new", FILE], b"n\t1\tvsids\n", None), (["on", FILE], b"g\t1\n", heap_text(1)):
        if text:
            write(text)
        for action in signal.SIG_DFL, signal.SIG_IGN:
            fails(words, unprinted, sheet, stdout=pipe, preexec_fn=lambda: signal.signal(signal.SIGPIPE, action))
    os.close(pipe)


def meddled():
    """Each call of the system that may fail does, once; and reads and writes that move few bytes."""
    text = heap_text(3)
    sheet, answers = b"b\t2\ng\t1\n", b"1\t0\t-\n2\t0\t2\n"
    new_sheet, new_answers = b"n\t3\tvsids\nb\t2\n", b"1\t0\t-\n2\t0\t-\n"
    no_space, no_device, not_allowed = ("No space left on device", 28), ("Input/output error", 5), ("Permission denied", 13)
    for call, (words, number) in [("create", no_space), ("write", no_space), ("fsync", no_device), ("rename", not_allowed)]:
        meddle = {"CARRY_FAIL": f"{call} {number}"}
        fails(["new", FILE], f"carry: {FILE}: not saved: {words}", new_sheet, new_answers, meddle=meddle)
        write(text)
        fails(["on", FILE], f"carry: {FILE}: not saved: {words}", sheet, answers, meddle=meddle)
        gone()
    fails(["new", FILE], f"carry: {FILE}: not saved: Permission denied", new_sheet, meddle={"CARRY_FAIL": "readlink 13"})
    goes(["new", FILE], new_sheet)
    wanted_new = read()
    write(text)
    for call in "fchmod 1", "fstat 1":
        fails(["on", FILE], f"carry: {FILE}: not saved: Operation not permitted", sheet, answers, meddle={"CARRY_FAIL": call})
    goes(["on", FILE], sheet)
    wanted_on = read()
    # the text has reached the disk before its file is closed
    for harmless in {"CARRY_FAIL": "getentropy 38"}, {"CARRY_FAIL": "fchown 1"}, {"CARRY_FAIL": "close 5"}, {"CARRY_SHORT": "1"}, {"CARRY_SHORT": "7"}:
        gone()
        expect((goes(["new", FILE], new_sheet, meddle=harmless), read()), (new_answers, wanted_new), f"{harmless}: a new session is another")
        write(text)
        expect((goes(["on", FILE], sheet, meddle=harmless), read()), (answers, wanted_on), f"{harmless}: a session is carried on otherwise")
        expect(os.listdir("."), [FILE], f"{harmless}: something is left behind")
    gone()
    expect((goes(["new", FILE], new_sheet, meddle={"CARRY_FAIL": "open 13"}), read()), (new_answers, wanted_new), "the folder is not opened, and a new session is another")
    # the name is taken while the sheet is run
    gone()
    _, told, _ = run(["new", FILE], new_sheet, meddle={"CARRY_MAKE": FILE})
    expect((told, files()), (f"carry: {FILE}: not saved: it is there already\n".encode(), {FILE: (0o100600, b"")}), "a file that comes in between is replaced")


def steps():
    """The calls of the system in their order."""
    os.mkdir("folder")
    saved = "write ASIDE, fsync ASIDE, close ASIDE"
    taken = "rename FILE, open folder/, fsync folder, close folder"
    for word, sheet, wanted in [
        ("new", b"n\t1\tvsids\n", f"readlink FILE, read 0, read 0, write 1, getentropy, create ASIDE, {saved}, readlink FILE, {taken}"),
        ("on", b"g\t1\n", "open FILE, read FILE, read FILE, close FILE, read 0, read 0, write 1, getentropy, create ASIDE, open FILE, fstat FILE, close FILE, "
            f"fchown ASIDE, fchmod ASIDE, {saved}, {taken}"),
    ]:
        goes([word, f"folder/{FILE}"], sheet, meddle={"CARRY_STEPS": "steps"})
        found = read("steps").decode().replace(os.getcwd() + "/", "")
        found = re.sub(f"folder/{ASIDE.pattern}", "ASIDE", found).replace(f"folder/{FILE}", "FILE")
        expect([line.strip() for line in found.splitlines()], wanted.split(", "), f"carry {word} takes other steps")
        gone("steps")


def killed():
    """A kill before each call of the system in turn: the file is whole, the old one or the new one, and another run goes on from there."""
    text, sheet, new_sheet = list_text(3), b"g\t1\nf\t2\n", b"n\t3\tvsids\nb\t2\n"
    for words, calls, old in (["new", FILE], new_sheet, None), (["on", FILE], sheet, text):
        if old:
            write(old)
        answers = goes(words, calls)
        new, seen, kills = read(), set(), 0
        while True:
            gone()
            if old:
                write(old)
            printed, told, status = run(words, calls, meddle={"CARRY_KILL": str(kills + 1)})
            if status != -signal.SIGKILL:
                break
            kills += 1
            found = read() if os.path.exists(FILE) else None
            left = [name for name in os.listdir(".") if name != FILE]
            if found not in (old, new) or (found == new and printed != answers) or len(left) > 1 or not all(map(ASIDE.fullmatch, left)) or told:
                wrong(f"carry {words[0]} was killed before its call {kills}, and this is left", found, left, printed, told)
            seen.add((found == new, bool(left), printed == answers))
            if found == old:
                expect((goes(words, calls), read()), (answers, new), f"carry {words[0]}, killed before its call {kills}, cannot be run again")
            for name in left:
                gone(name)
        expect((printed, told, status), (answers, b"", 0), f"carry {words[0]} has another end after {kills} kills")
        # killed before the answers, behind them, with a file aside, and once the name is taken
        if kills < 9 or not seen >= {(False, False, False), (False, False, True), (False, True, True), (True, False, True)}:
            wrong(f"carry {words[0]}: {kills} kills, and not each of the steps was met", seen)


ROOT = os.getcwd()
for check in pages, cuts, parts, fresh, refused, names, permissions, unwritable, full, unread, meddled, steps, killed, shown:
    shared = "/dev/shm" if os.access("/dev/shm", os.W_OK) else None
    with tempfile.TemporaryDirectory(dir=shared) as room:
        os.chmod(room, 0o755)
        os.chdir(room)
        check()
        os.chdir(ROOT)
print(f"carry: {RUNS} runs: long sheets cut at every line, in three parts and line by line, every refusal, names, permissions and failing calls as they should be")
print("carry: after a kill before each call of the system the file is whole, the old one or the new one")
