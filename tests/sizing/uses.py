"""The command's options, what it takes for text, and how it ends where its output is lost."""
import os
import shutil
import subprocess
import tempfile

import model
from running import ends, lost, refused, reported, uncounted
from shared import ROOT, compare

RECORDINGS = [[1, 2, 1, 3, 2], [7, 7], [4095]]
TALLY = model.Tally(RECORDINGS)
TEXT = b"1 2 1 3 2\n7 7\n4095\n"
# the same recordings, written otherwise
WRITTEN = [
    b"1 2 1 3 2\n7 7\n4095",
    b"1 2 1 3 2\r\n7 7\r\n4095\r\n",
    b"\t1  2\t1 3 2 \n 7 7\n4095\n",
    b"# of a morning\n1 2 1 3 2 # five\n#\n7 7#two\n   # and\n4095\n# the end",
    b"001 2 01 3 2\n0000000000000000000000000007 7\n04095\n",
    b"\xef\xbb\xbf1 2 1 3 2\n7 7\n4095\n",
]
OPTION = "no such option: {}; ./sizing --help tells which there are"
NUMBER = "a size has to be a whole number, and '{}' is none; --sizes 8,16,64 names three, with no blank between them"
GIVE = "give recordings: ./sizing FILE.., ./sizing - or ./sizing --calls FILE.."


def errors():
    """Uses that make no sense, with what is said of them."""
    yield [], GIVE
    yield ["--sizes", "8"], GIVE
    yield ["--nosuch", "-"], OPTION.format("--nosuch")
    yield ["-", "-s"], OPTION.format("-s")
    yield ["-", "--sizes=8"], OPTION.format("--sizes=8")
    yield ["--", "-"], OPTION.format("--")
    yield ["-", "--sizes"], "--sizes needs whole numbers behind it, as in --sizes 8,16,64"
    for word in ("", "x", "8,", ",8", "8 16", "2, 3", "+8", "8.5", "1e3", "8,x,16"):
        first = next(part for part in word.split(",") if not part.isdigit())
        yield ["-", "--sizes", word], NUMBER.format(first)
    larger = "18446744073709551616"
    yield ["-", "--sizes", larger], f"a size has to be a whole number up to 18446744073709551615, and {larger} is larger"
    yield ["-", "--sizes", "-8"], "--sizes needs whole numbers behind it, as in --sizes 8,16,64"
    yield ["-", "--svg"], "--svg needs a FILE behind it, for the curve"
    yield ["-", "--svg", ""], "--svg needs a FILE behind it, for the curve"
    yield ["--svg", "-", "-"], "--svg needs a FILE behind it, for the curve"
    yield ["-", "--svg", "a", "--svg", "b"], "--svg is there twice, and there is one curve"
    yield ["-", "--svg", "/nosuch/a", "--sizes", ",".join(map(str, range(13)))], "--svg marks up to 12 sizes, and 13 are asked for"
    yield ["-", "--calls"], "--calls has no FILE behind it: the FILEs behind it are recordings of calls"
    yield ["-", "-"], "- is there twice, and standard input can be read once"
    yield ["-", "--calls", "-"], "- is there twice, and standard input can be read once"


def good(folder):
    """Uses that print something, with the lines."""
    def file(name, data):
        with open(os.path.join(folder, name), "wb") as written:
            written.write(data)
        return os.path.join(folder, name)

    one, two, three = (file(name, data) for name, data in (("one", b"1 2 1 3 2\n"), ("two", b"7 7"), ("three", b"4095\n")))
    whole = file("whole", TEXT)
    depths = TALLY.depth_lines()
    yield "no option", [whole], depths
    yield "several files", [one, two, three], depths
    yield "sizes in their order", [whole, "--sizes", "3,1", "--sizes", "3,0,007"], depths + TALLY.size_lines([3, 1, 3, 0, 7])
    yield "sizes alone", ["--no-depths", "--sizes", "2", whole], TALLY.size_lines([2])
    yield "no depths and no sizes", [whole, "--no-depths"], []
    yield "standard input among files", [one, "-", three], depths


def example():
    """Whether the example that the README names comes out as the model says."""
    path = os.path.join(ROOT, "examples/fixes.txt")
    with open(path, encoding="utf-8") as file:
        recordings = [[int(page) for page in line.split()] for line in file if not line.startswith("#")]
    tally = model.Tally(recordings)
    sizes = [4, 8, 16, 32]
    found = ends([path, "--sizes", ",".join(map(str, sizes))])
    return compare("./sizing, the example", found, reported(tally, tally.depth_lines() + tally.size_lines(sizes)))


def losing(folder):
    """Uses whose output has nowhere to go: their name, what came of them, and what should."""
    curve = os.path.join(folder, "curve.svg")
    room = "No space left on device (os error 28)"
    sizes = ["--no-depths", "--sizes", "8"]
    with open("/dev/full", "wb") as full:
        for more in [], sizes, ["--svg", curve]:
            yield f"no room for the lines, {more}", ends(["-", *more], input=TEXT, stdout=full), lost([], f"output was lost: {room}")
    yield "a curve all the same", [os.path.getsize(curve) > 1000], [True]
    lines = TALLY.size_lines([8])
    for file, why in ("/dev/full", room), (f"{folder}/nosuch/a.svg", "No such file or directory (os error 2)"):
        yield f"no room for the curve, {file}", ends(["-", *sizes, "--svg", file], input=TEXT), lost(lines, f"the curve was lost: {file}: {why}")


def leaves():
    """What the command says to a reader that goes after the first line, and whether it ends with 1."""
    # more than a pipe holds, so that there is something left to write
    run = subprocess.Popen([os.path.join(ROOT, "sizing"), "-", "--sizes", ",".join(["1"] * 9000)], stdin=subprocess.PIPE, stdout=subprocess.PIPE, stderr=subprocess.PIPE)
    run.stdin.write(TEXT)
    run.stdin.close()
    run.stdout.readline()
    run.stdout.close()
    said = run.stderr.read().decode("utf-8", "replace")
    run.stderr.close()
    return [f"status {run.wait()}", f"says {said.strip()}"]


def over(folder):
    """Whether a curve is never written over a recording, and over what is none all the same."""
    path, link, hard = (os.path.join(folder, name) for name in ("kept", "link", "hard"))
    with open(path, "wb") as file:
        file.write(TEXT)
    os.symlink(path, link)
    os.link(path, hard)
    uses = [path, "--svg", path], [path, "--svg", link], ["--calls", link, "--svg", path], [path, "--svg", hard], ["-", "--svg", path], ["--calls", "-", "--svg", hard]
    for arguments in uses:
        why = f"{arguments[arguments.index('--svg') + 1]} is a recording, and --svg would write over it"
        with open(path, "rb") as file:
            yield compare(f"./sizing, a curve over its recording, {arguments}", ends(arguments, stdin=file), refused(why))
    with open(path, "rb") as file:
        yield compare("the recording that was there", [file.read()], [TEXT])
    # a copy is another file, and a device none
    copy = shutil.copy(path, os.path.join(folder, "copy"))
    yield compare("./sizing, a curve over a copy", ends([path, "--no-depths", "--svg", copy]), reported(TALLY, []))
    none = ends(["-", "--svg", "/dev/null"], stdin=subprocess.DEVNULL)
    yield compare("./sizing, a curve into the device that is read", none, uncounted("standard input: no recording"))


def unsaid(*arguments, stdout=subprocess.DEVNULL):
    """The status where standard error has no room."""
    with open("/dev/full", "wb") as full:
        return subprocess.run([os.path.join(ROOT, "sizing"), *arguments], input=TEXT, stdout=stdout, stderr=full, check=False).returncode


def results():
    """Whether each comparison holds."""
    for arguments, why in errors():
        yield compare(f"./sizing {arguments}", ends(arguments, input=TEXT), refused(why))
    for text in WRITTEN:
        yield compare(f"./sizing, {text}", ends(["-"], input=text), reported(TALLY, TALLY.depth_lines()))
    yield example()
    with tempfile.TemporaryDirectory() as folder:
        for name, arguments, lines in good(folder):
            yield compare(f"./sizing, {name}", ends(arguments, input=b"7 7\n"), reported(TALLY, lines))
        for name, found, wanted in losing(folder):
            yield compare(f"./sizing, {name}", found, wanted)
        yield from over(folder)
    yield compare("./sizing, a reader that leaves", leaves(), lost([], "output was lost: Broken pipe (os error 32)"))
    with open("/dev/full", "wb") as full:
        statuses = [unsaid("-"), unsaid("-", stdout=full), unsaid("--calls", "-"), unsaid("--nosuch")]
    yield compare("./sizing, no room on standard error", statuses, [0, 1, 2, 2])
    closed = ends(["-"], input=TEXT, stdout=None, preexec_fn=lambda: os.close(1))
    yield compare("./sizing, closed standard output", closed, refused("standard output is closed"))
    yield compare("./sizing, a name that is no text", ends([b"\xff"], input=TEXT), refused("'\ufffd' is no text in UTF-8"))
    for arguments in ["--help"], ["-h"], ["-", "--sizes", "8", "--help"], ["--nosuch", "-h"]:
        status, *lines = ends(arguments, input=TEXT)
        words = ("./sizing FILE", "./sizing --calls FILE", "./sizing --help", "--sizes", "--svg", "--no-depths")
        told = [word for word in words if any(line.startswith(f"  {word}") for line in lines)]
        yield compare(f"./sizing {arguments}", [status, *told, *(line for line in lines if line.startswith("says "))], ["status 0", *words])
    with open("/dev/full", "wb") as full:
        yield compare("./sizing --help, no room", ends(["--help"], stdout=full)[:1], ["status 1"])
