"""The program a record at a time, and the command ./listing: what it prints, what it says on standard error, and how it ends."""
import os
import select
import subprocess
import tempfile

import shared
from shared import RECORD, compare

COMMAND = "./listing"


def line_by_line(program, given):
    """The lines of records that are handed over one by one, each once the line before it is there."""
    run = subprocess.Popen([program], stdin=subprocess.PIPE, stdout=subprocess.PIPE, bufsize=0)
    lines = []
    for at in range(0, len(given), RECORD):
        run.stdin.write(given[at:at + RECORD])
        if not select.select([run.stdout], [], [], 10)[0]:
            lines.append("no line within 10 seconds")
            break
        lines += run.stdout.read(100).decode("ascii", "replace").split("\n")[:-1]
    run.communicate()
    return lines


def ends(arguments, **given):
    return shared.ends(COMMAND, arguments, **given)


def runs(given, wanted):
    """Each use of the command: its name, what came of it, the status and the lines that are wanted, and what standard error has to say."""
    yield "a recording", ends(["-"], input=given), 0, wanted, ""
    with tempfile.NamedTemporaryFile() as file:
        file.write(given)
        file.flush()
        yield "a file", ends([file.name]), 0, wanted, ""
    yield "no argument", ends([]), 0, wanted, ""
    yield "a part record", ends(["-"], input=given + given[:5]), 0, wanted, "a part record of 5 bytes"
    yield "a text", ends(["-"], input=b"a text of 16 by\n"), 0, ["97 17 0 0"], "is this a recording?"
    yield "no such file", ends(["nosuch"]), 2, [], "no such file"
    yield "a directory", ends(["/"]), 2, [], "a directory"
    yield "two files", ends(["-", "-"]), 2, [], "give one recording"
    with open("/dev/full", "wb") as full:
        yield "no room for the lines", ends(["-"], stdout=full, input=given), 1, [], "could not all be written"
    yield "closed standard output", ends(["-"], stdout=None, preexec_fn=lambda: os.close(1), input=given), 2, [], "standard output is closed"
    folder = os.open("/", os.O_RDONLY)
    yield "a directory as standard input", ends(["-"], stdin=folder), 1, [], "could not be read"
    os.close(folder)


def results(program, given, wanted):
    """Whether each comparison holds."""
    yield compare("a record at a time", line_by_line(program, given), wanted)
    for name, (status, lines, said), status_wanted, lines_wanted, words in runs(given, wanted):
        yield compare(f"./listing, {name}", lines + [f"status {status}"], lines_wanted + [f"status {status_wanted}"])
        yield compare(f"./listing, {name}, says", [] if (words in said if words else not said) else [said.strip() or "nothing"], [])
    status, lines, said = ends(["--help"])
    yield compare("./listing --help", [status, "./listing FILE" in " ".join(lines), said], [0, True, ""])
