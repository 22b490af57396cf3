"""Texts that are refused: each fault is named by file and line, nothing is printed, and a curve that was there stays."""
import os
import tempfile

import model
from running import ends, uncounted
from shared import compare

HINT = (
    "a text has a recording a line: page numbers with blanks between them. # starts a comment, and a line with a comment alone is no recording; "
    "an empty line is one without pages: take it out. The text is ASCII or UTF-8. Recordings of calls stand behind --calls")
NONE = "refused by rule 1: no page; a recording has 1 to 4,096"
MANY = "refused by rule 1: {} pages; a recording has 1 to 4,096"
FULL = "refused by rule 1: one recording too many; a tally takes 65,535"
ABOVE = "refused by rule 6: place {} has page {}; pages go up to 4,095"
OTHER = "place {} has '{}', which is no page number"
RETURN = "a carriage return in the comment: a line ends with a line feed"
LONG = "more than 1,048,576 bytes: a recording ends with its line"
CUT = "these are the first 10 faults; there may be more"


def pages(count, last=0):
    """A line of so many pages."""
    return " ".join(["0"] * (count - 1) + [str(last)])


def texts():
    """Each text with its faults, a line and what is said of it; and whether what a text is has to be said too."""
    yield "1 2\n\n3", [(2, NONE)], True
    yield "1\n \t \r\n2", [(2, NONE)], True
    yield "\n", [(1, NONE)], True
    yield "1\n2\n\n", [(3, NONE)], True
    yield f"1\n{pages(4097)}\n2", [(2, MANY.format("4,097"))], False
    yield f"{pages(10000)}", [(1, MANY.format("10,000"))], False
    yield "1 4096 2", [(1, ABOVE.format(2, 4096))], False
    yield "1\n0 5 4095\n2 3 4 65535", [(3, ABOVE.format(4, 65535))], False
    yield "65536", [(1, ABOVE.format(1, 65536))], False
    yield "7 99999999999999999999 5000", [(1, ABOVE.format(2, "99999999999999999999"))], False
    yield "7 123456789012345678901 5000", [(1, ABOVE.format(2, "12345678901234567890.."))], False
    yield pages(4096, 4096), [(1, ABOVE.format(4096, 4096))], False
    # the length is tested before the pages, and a word before both
    yield pages(4097, 5000), [(1, MANY.format("4,097"))], False
    yield pages(4097, "x"), [(1, OTHER.format(4097, "x"))], True
    yield "5000 x", [(1, OTHER.format(2, "x"))], True
    yield "1 2 x 3", [(1, OTHER.format(3, "x"))], True
    yield "root\nfix 3 of 0 0", [(1, OTHER.format(1, "root")), (2, OTHER.format(1, "fix"))], True
    words = ["-2", "1,2", "+3", "4.0", "0x5", "1e3"]
    yield "\n".join(words), [(line, OTHER.format(1, word)) for line, word in enumerate(words, 1)], True
    yield "5 7\r9 7", [(1, OTHER.format(2, "7\\r9"))], True
    yield "5 7 # two\r9 7\r", [(1, RETURN)], True
    yield "1 a\0b", [(1, OTHER.format(2, "a\\0b"))], True
    yield "1" + " " * (1 << 20) + "2\n3\nx", [(1, LONG), (3, OTHER.format(1, "x"))], True
    yield "x\n" * 9 + "1\n5000", [*((line, OTHER.format(1, "x")) for line in range(1, 10)), (11, ABOVE.format(1, 5000)), (None, CUT)], True
    yield "1\n" + "\n" * 50, [*((line, NONE) for line in range(2, 12)), (None, CUT)], True
    most = "7\n" * model.MOST_RECORDINGS
    yield most + "8 9\n", [(65536, FULL)], False
    yield "# a comment\n" + most + "8 9\n10", [(65537, FULL), (65538, FULL)], False
    # the length, also of one too many: 1 comes before 6
    yield most + "5000", [(65536, FULL)], False


def told(name, found, is_odd):
    """The lines on standard error."""
    named = [why if line is None else f"{name}, line {line}: {why}" for line, why in found]
    return uncounted(*named, *([HINT] if is_odd else []))


def results():
    """Whether each comparison holds."""
    with tempfile.TemporaryDirectory() as folder:
        path, curve, good, empty = (os.path.join(folder, name) for name in ("text", "curve.svg", "good", "empty"))
        for name, text in ((good, "1 2 1\n"), (empty, ""), (curve, "an older curve")):
            with open(name, "w", encoding="utf-8") as file:
                file.write(text)
        for text, found, is_odd in texts():
            with open(path, "w", encoding="utf-8", newline="") as file:
                file.write(text)
            name = f"the text {text[:20]!r} of {len(text)}"
            yield compare(name, ends([path, "--sizes", "8", "--svg", curve]), told(path, found, is_odd))
            yield compare(f"{name}, on standard input", ends(["-"], input=text.encode()), told("standard input", found, is_odd))
        missing = f"{folder}/nosuch: No such file or directory (os error 2)"
        yield compare("no such file", ends([good, f"{folder}/nosuch"]), uncounted(missing))
        yield compare("a directory", ends([folder, good]), uncounted(f"{folder}: Is a directory (os error 21)"))
        yield compare("an empty file", ends([good, empty]), uncounted(f"{empty}: no recording"))
        for text in ("", "# a comment\n  # and another"):
            yield compare("no recording", ends(["-"], input=text.encode()), uncounted("standard input: no recording"))
        with open(path, "w", encoding="utf-8") as file:
            file.write("x\n1\n")
        both = uncounted(f"{path}, line 1: {OTHER.format(1, 'x')}", missing, f"{empty}: no recording", HINT)
        yield compare("faults of several files", ends([path, good, f"{folder}/nosuch", empty, "--svg", curve]), both)
        with open(curve, encoding="utf-8") as file:
            yield compare("the curve that was there", [file.read()], ["an older curve"])
