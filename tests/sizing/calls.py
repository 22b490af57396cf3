"""Recordings of calls: the pages that their accepted fixes answered, and what is no such recording."""
import os
import tempfile

import model
import shared
from faults import CUT
from running import ends, reported, uncounted
from shared import CALLS, RECORD, ROOT, compare

# what a call that is none is refused by
SEVENTEEN = next(sentence for number, _, _, sentence in shared.rules() if number == 17)

# each call, with the page of an accepted fix
TOLD = [
    ("fix 3 of 0 0", None),  # no handle yet: 3
    ("root", None),
    ("link 7 3 of 0 0", None),
    ("fix 3 of 0 0", 7),
    ("fix 4 of 0 0", None),  # an empty slot: 7
    ("root", None),
    ("fix 16 of 0 0", None),  # no such slot: 4
    ("link 9 5 of 1 7", None),
    ("fix 5 of 1 7", 9),
    ("find 9", None),
    ("fix 3 of 0 0", 7),
    ("unfix 1 7", None),
    ("write 0 0102 of 1 7", None),
    ("fix 5 of 1 7", 9),
    ("evict 9", None),  # pinned: 21
    ("settle", None),
]
PAGES = [page for _, page in TOLD if page is not None]
WORDS = "# calls in words\n" + "".join(f"{line}\n" for line, _ in TOLD)

EXPECTED = "expected a call, found '{}'"
# what is said once behind lines that are no calls, between them the forms of calls
FORMS = "a recording is records of 16 bytes with no header, or lines of these forms, # starting a comment:"
FRONT = "texts of page numbers stand in front of --calls"


def record(call, frame=0, page=0, slot=0, parent=0):
    """A record of 16 bytes."""
    head = bytes([CALLS.index(call) + 1, frame]) + page.to_bytes(2, "little") + bytes([slot, 0, 0])
    return (head + parent.to_bytes(2, "little")).ljust(RECORD, b"\0")


def fixes(count):
    """Records in which page 7 is fixed and let go so many times."""
    return record("root") + record("link", page=7, slot=3) + (record("fix", slot=3) + record("unfix", frame=1, page=7)) * count


def listed(data):
    """The pages of accepted fixes by the listing's own lines."""
    _, lines, _ = shared.ends("./listing", ["-"], input=data)
    numbers = [tuple(map(int, line.split())) for line in lines]
    return [page for call, refusal, _, page in numbers if (call, refusal) == (2, 0)]


def drawn(seed, count):
    """The records of a workload."""
    run = shared.subprocess.run([os.path.join(ROOT, "workload"), "--records", str(seed), str(count)], capture_output=True, check=True)
    return run.stdout


def of(name, tally, found, sizes):
    """Whether a run with these sizes says what the model says."""
    return compare(name, found, reported(tally, tally.depth_lines() + tally.size_lines(sizes)))


def good(folder):
    """Recordings that are taken, from files, from standard input and together with text."""
    def file(name, data):
        path = os.path.join(folder, name)
        with open(path, "wb") as written:
            written.write(data)
        return path

    words = file("words", WORDS.encode())
    sizes = ["--sizes", "1,2"]
    one = model.Tally([PAGES])
    yield of("calls in words", one, ends(["--calls", words, *sizes]), [1, 2])
    yield of("calls in words behind a mark", one, ends(["--calls", "-", *sizes], input=b"\xef\xbb\xbf" + WORDS.encode()), [1, 2])
    yield of("calls in words on standard input", one, ends(["--calls", "-", *sizes], input=WORDS.encode()), [1, 2])
    most = fixes(4096)
    yield of("the most accepted fixes", model.Tally([[7] * 4096]), ends(["--calls", "-", *sizes], input=most), [1, 2])
    recorded = [drawn(seed, 20000) for seed in (1, 2, 77)]
    pages = [listed(data) for data in recorded]
    yield compare("workloads have accepted fixes", [len(one) > 0 for one in pages], [True] * 3)
    files = [file(f"workload.{at}", data) for at, data in enumerate(recorded)]
    yield of("workloads", model.Tally(pages), ends(["--calls", *files, *sizes]), [1, 2])
    text = file("text", b"1 2 1\n# a comment\n3\n")
    both = model.Tally([[1, 2, 1], [3], PAGES, pages[0]])
    yield of("text and calls", both, ends([text, *sizes, "--calls", words, files[0]]), [1, 2])
    yield of("text and calls on standard input", both, ends([*sizes, text, "--calls", words, "-"], input=recorded[0]), [1, 2])


def bad():
    """What is no recording of calls, with what is said of it."""
    yield "lines that are no calls", b"root\nfix 3\n\nhop\n", [", line 2: expected fix SLOT of FRAME PAGE", f", line 4: {EXPECTED.format('hop')}", FORMS, FRONT]
    yield "a text of pages", b"1 2 3\n", [f", line 1: {EXPECTED.format(1)}", FORMS, FRONT]
    yield "eleven lines that are no calls", b"root\n" + b"hop\n" * 11, [*(f", line {line}: {EXPECTED.format('hop')}" for line in range(2, 12)), CUT, FORMS, FRONT]
    none = ": refused by rule 1: no accepted fix; a recording has 1 to 4,096 (./replay tells each call)"
    yield "no byte", b"", [none]
    yield "a comment alone", b"# nothing\n", [none]
    yield "no accepted fix", b"root\nfix 3 of 0 0\n", [none]
    yield "one fix too many", fixes(4097), [": refused by rule 1: 4,097 accepted fixes; a recording has 1 to 4,096"]
    yield "twice as many", fixes(8192), [": refused by rule 1: 8,192 accepted fixes; a recording has 1 to 4,096"]
    for size in (1, 15):
        yield f"a part record of {size}", fixes(3)[:-size], [f": a part record of {RECORD - size} bytes at the end"]
    by_17 = f"refused by rule 17: {SEVENTEEN}"
    seventeen = f", call 3: {by_17}"
    yield "a record that is no call", fixes(0) + bytes([11]).ljust(RECORD, b"\0") + fixes(1), [seventeen]
    yield "a record with a length too long", fixes(0) + bytes([2, 0, 0, 0, 3, 0, 10]).ljust(RECORD, b"\0") + fixes(1), [seventeen]
    none = "record 0b000000000000000000000000000000\n"
    lines = f"# calls\nroot\n\n{none}link 7 3 of 0 0\n{none}fix 3 of 0 0\n"
    yield "lines of records that are no calls", lines.encode(), [f", line {line}: {by_17}" for line in (4, 6)]
    yield "eleven records that are no calls", fixes(6) + bytes([11] * RECORD) * 11, [*(f", call {call}: {by_17}" for call in range(15, 25)), CUT]


def without_forms(found):
    """What comes of a run, without the lines between FORMS and FRONT."""
    if f"says sizing: {FORMS}" in found:
        first, last = (found.index(f"says sizing: {line}") for line in (FORMS, FRONT))
        found[first + 1:last] = []
    return found


def results():
    """Whether each comparison holds."""
    with tempfile.TemporaryDirectory() as folder:
        yield from good(folder)
        for name, data, why in bad():
            path = os.path.join(folder, "bad")
            with open(path, "wb") as file:
                file.write(data)
            for given, shown, more in (([path], path, {}), (["-"], "standard input", {"input": data})):
                found = without_forms(ends(["--calls", *given, "--sizes", "1"], **more))
                yield compare(f"calls, {name}", found, uncounted(*(shown + line if line[0] in ",:" else line for line in why)))
        one, two = (os.path.join(folder, name) for name in ("one", "two"))
        for path, data in (one, b"root\nhop\n"), (two, b"skip\nroot\n" + b"hop\n" * 20):
            with open(path, "wb") as file:
                file.write(data)
        named = [f"{one}, line 2: {EXPECTED.format('hop')}", f"{two}, line 1: {EXPECTED.format('skip')}", *(f"{two}, line {line}: {EXPECTED.format('hop')}" for line in range(3, 11))]
        found = without_forms(ends(["--calls", one, two, f"{folder}/nosuch"]))
        yield compare("calls, bad lines in two files", found, uncounted(*named, CUT, FORMS, FRONT))
        missing = uncounted(f"{folder}/nosuch: No such file or directory (os error 2)")
        yield compare("calls, no such file", ends(["--calls", f"{folder}/nosuch"]), missing)
        yield compare("calls, a directory", ends(["--calls", folder]), uncounted(f"{folder}: Is a directory (os error 21)"))
