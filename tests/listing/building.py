"""The commands ./listing and ./workload where their programs have to be built, in a folder of their own with a stand-in for rt."""
import os
import shutil
import subprocess
import tempfile

from shared import Copy, compare

FILES = ["program.sh", "listing", "workload"]
# all that the commands and the stand-in call; flock may be missing
TOOLS = ["awk", "cat", "chmod", "cp", "dirname", "find", "flock", "mkdir", "mktemp", "mv", "rm", "sed", "sleep", "tee", "wc"]
CRATES = "# NAME: the crates it knows\npage:\nother:\nprinting: page\nlisting: page printing io\nworkload: page printing other io\n"
# says what rt run says in a crate's folder, makes a program that reads its input and says what it is, but leaves one that is there, as
# rt does, and runs it; fails where a file asks for it
RT = """#!/bin/bash
name=${PWD##*/}
echo "begins $name" >> ../../log
sleep 0.1
{
    echo "rt: chose --jobs 2 for page"
    echo "fn page::word: proved"
    echo "  a line of the report"
    echo "crate page: modules loaded=2 checked=1"
    echo "rt: running out/$name"
} >&2
echo "ends $name" >> ../../log
[ ! -e ../../fails ] || exit 1
if [ ! -e "out/$name" ]; then
    mkdir -p out
    printf '#!/bin/sh\\ncat > /dev/null\\necho %s\\n' "$name" > "out/$name"
    chmod +x "out/$name"
fi
[ "$*" = run ] && [ "$(cat)" = "the input of $name" ] && "out/$name" < /dev/null
"""


class Folder(Copy):
    """A copy of the commands, with crates that have a source each, and a folder of tools in which the stand-in is the only rt."""

    def __init__(self, path):
        super().__init__(path, FILES, TOOLS)
        self.write("crates.txt", CRATES)
        for crate in ("page", "other", "printing", "listing", "workload"):
            self.write(f"crates/{crate}/src/lib.rt", "")
            self.write(f"crates/{crate}/stdin", f"the input of {crate}\n")
        self.write("tools/rt", RT, 0o755)

    def environment(self):
        return {**os.environ, "PATH": self.at("tools")}

    def run(self, command, *arguments):
        """The status, the lines and the words of a use, and what it built."""
        run = subprocess.run([self.at(command), *arguments], input=b"", capture_output=True, env=self.environment(), check=False)
        return run.returncode, run.stdout.decode(), run.stderr.decode(), self.log()


def both(folder):
    """What two commands of a pipe built, each finding its program missing."""
    first = subprocess.Popen([folder.at("workload"), "--records", "7", "1"], stdout=subprocess.PIPE, stderr=subprocess.DEVNULL, env=folder.environment())
    second = subprocess.run([folder.at("listing"), "-"], stdin=first.stdout, capture_output=True, env=folder.environment(), check=False)
    first.stdout.close()
    first.wait()
    built = folder.log()
    return [first.returncode, second.returncode, second.stdout.decode(), sorted(built), [line.split()[0] for line in built]]


def results():
    """Whether each comparison holds."""
    with tempfile.TemporaryDirectory() as path:
        folder = Folder(path)
        once, pair = ["begins workload", "ends workload"], ["begins listing", "begins workload", "ends listing", "ends workload"]
        told = "workload: builds the program first; crates to prove: up to 4\nrt: chose --jobs 2 for page\nfn page::word: proved\n"
        told += "crate page: modules loaded=2 checked=1  [up to 3 left]\n"
        yield compare("./workload, no program", folder.run("workload", "7", "1"), (0, "workload\n", told, once))
        yield compare("./workload, built", folder.run("workload", "7", "1"), (0, "workload\n", "", []))
        os.utime(folder.at("target/bin/workload"), (1, 1))
        yield compare("./workload, older than a source", folder.run("workload", "7", "1"), (0, "workload\n", told, once))
        yield compare("./workload, built again", folder.run("workload", "7", "1"), (0, "workload\n", "", []))
        yield compare("./listing, no program", folder.run("listing", "-")[3], ["begins listing", "ends listing"])
        for name in ("crates.txt", "crates/page/src/lib.rt", "crates/printing/src/lib.rt", "crates/listing/src/lib.rt", "crates/workload/src/lib.rt"):
            os.utime(folder.at(name), (1, 1))
        for program in ("listing", "workload"):
            os.utime(folder.at(f"target/bin/{program}"), (2, 2))
        yield compare("./listing, a source of another program is newer", folder.run("listing", "-"), (0, "listing\n", "", []))
        yield compare("./workload, a source of a crate below is newer", folder.run("workload", "7", "1")[3], once)
        os.utime(folder.at("target/bin/workload"), (2, 2))
        folder.write("fails", "")
        status, lines, said, built = folder.run("workload", "7", "1")
        ends = "\nrt: running out/workload\nworkload: the program could not be built\n"
        found = [status, lines, "\n  a line of the report\n" in said, said.endswith(ends), built]
        yield compare("./workload, rt fails", found, [2, "", True, True, once])
        os.remove(folder.at("fails"))
        for program in ("listing", "workload"):
            os.remove(folder.at(f"target/bin/{program}"))
        if shutil.which("flock"):
            yield compare("./workload | ./listing", both(folder), [0, 0, "listing\n", pair, ["begins", "ends", "begins", "ends"]])
            os.remove(folder.at("target/bin/workload"))
        os.remove(folder.at("tools/rt"))
        missing = "workload: the program is not built yet, and rt, which builds it, is not found\n"
        yield compare("./workload, no rt", folder.run("workload", "7", "1"), (2, "", missing, []))
