"""What the tests of the listing, of the workload and of sizing share: the calls and their answers, comparing lines, and running a command,
also where its parts have to be built."""
import os
import shutil
import subprocess

ROOT = os.path.join(os.path.dirname(os.path.abspath(__file__)), "../..")
RECORD = 16
CALLS = ["root", "fix", "unfix", "write", "link", "unlink", "evict", "settle", "find"]


def rules():
    """The rows of rules.txt, each as its number, the calls that answer it, whether the listing can, and the sentence."""
    with open(os.path.join(ROOT, "rules.txt"), encoding="utf-8") as table:
        rows = [line.split() for line in table if line.strip() and line[0] != "#"]
    listing = rows[0].index("listing")
    for row in rows[1:]:
        calls = [call for call, mark in zip(rows[0][2:listing], row[2:listing]) if mark == "x"]
        yield int(row[0]), calls, row[listing] == "x", " ".join(row[listing + 1:])


def pairs():
    """Each call's number with each answer that it can give; calls that are none answer what the record itself breaks."""
    for answer, calls, is_listed, _ in rules():
        of_all = [0, *range(1, len(CALLS) + 1), len(CALLS) + 1, 255]
        for number in [CALLS.index(call) + 1 for call in calls if call in CALLS] if calls else of_all:
            if is_listed:
                yield number, answer


PAIRS = set(pairs())


def compare(name, got, wanted):
    """Says whether the lines are those that are wanted, and prints the first that is not."""
    if got == wanted:
        return True
    for at in range(max(len(got), len(wanted))):
        is_now, should_be = (lines[at] if at < len(lines) else "the end" for lines in (got, wanted))
        if is_now != should_be:
            print(f"{name}: line {at + 1} should be '{should_be}' and is '{is_now}'")
            return False


def ends(command, arguments, stdout=subprocess.PIPE, **given):
    """The status, the lines and the words on standard error of a run of a command of the repository."""
    run = subprocess.run([os.path.join(ROOT, command), *arguments], stdout=stdout, stderr=subprocess.PIPE, **given)
    printed, said = ((text or b"").decode("utf-8", "replace") for text in (run.stdout, run.stderr))
    return run.returncode, printed.split("\n")[:-1], said


class Copy:
    """A copy of commands in a folder of their own, with the only tools that they find."""

    def __init__(self, path, commands, tools):
        self.path = path
        for command in commands:
            shutil.copy(os.path.join(ROOT, command), path)
        os.mkdir(self.at("tools"))
        for tool in filter(shutil.which, tools):
            os.symlink(shutil.which(tool), self.at(f"tools/{tool}"))

    def at(self, name):
        return os.path.join(self.path, name)

    def write(self, name, text, mode=0o644):
        os.makedirs(os.path.dirname(self.at(name)), exist_ok=True)
        with open(self.at(name), "w", encoding="utf-8") as file:
            file.write(text)
        os.chmod(self.at(name), mode)

    def log(self):
        """What was built since it was last asked."""
        if not os.path.exists(self.at("log")):
            return []
        with open(self.at("log"), encoding="utf-8") as file:
            lines = file.read().splitlines()
        os.remove(self.at("log"))
        return lines
