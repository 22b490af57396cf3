"""The command where its parts have to be built, in a folder of its own with stand-ins for what builds them."""
import os
import shutil
import subprocess
import tempfile
import time

from shared import Copy, compare

# all that the command and the stand-ins call; flock may be missing
TOOLS = ["bash", "cat", "chmod", "dirname", "flock", "mkdir", "mv", "rm", "sed", "sleep"]
# writes the archive where it is missing, says so, and fails where a file asks for it
ARCHIVE = """#!/bin/bash
cd "$(dirname "$0")"
[ ! -e target/staticlib/libpagepool.a ] || exit 0
[ "$*" != --check ] || exit 1
echo "archive begins" >> log
sleep 0.5
echo "archive ends" >> log
[ ! -e fails ] || { echo "archive: why" >&2; exit 1; }
mkdir -p target/staticlib
echo > target/staticlib/libpagepool.a
"""
# makes a program that says what it was handed, where it finds the archive that is named; puts it in its place whole, as cargo does, since
# another use may be about to run the one that is there
CARGO = """#!/bin/bash
folder=$(dirname "$0")/..
echo "cargo $*" | sed "s|$folder|.|g; s|/tools/\\.\\.||g" >> "$folder/log"
[ -e "$POOL_ARCHIVES/libpagepool.a" ] || exit 1
mkdir -p "$folder/target/cargo/release"
printf '#!/bin/bash\\necho "$@"\\n' > "$folder/target/cargo/release/sizing.$$"
chmod +x "$folder/target/cargo/release/sizing.$$"
mv -f "$folder/target/cargo/release/sizing.$$" "$folder/target/cargo/release/sizing"
"""
BUILT = "cargo build --release --offline --locked --quiet --manifest-path {0}/hits/Cargo.toml --target-dir {0}/target/cargo"


class Folder(Copy):
    """A copy of the command with stand-ins, in which nothing is built yet."""

    def __init__(self, path):
        super().__init__(path, ["sizing"], TOOLS)
        self.write("archive", ARCHIVE, 0o755)
        self.write("tools/cargo", CARGO, 0o755)

    def started(self, *arguments, **more):
        environment = {name: value for name, value in os.environ.items() if name != "POOL_ARCHIVES"}
        environment = {**environment, "PATH": self.at("tools"), **more}
        return subprocess.Popen([self.at("sizing"), *arguments], stdout=subprocess.PIPE, stderr=subprocess.PIPE, env=environment)

    def run(self, *arguments, **more):
        """The status, the lines and the words of a use, and what it built."""
        run = self.started(*arguments, **more)
        printed, said = (text.decode() for text in run.communicate())
        return [run.returncode, printed, said, self.log()]


def results():
    """Whether each comparison holds."""
    with tempfile.TemporaryDirectory() as path:
        folder = Folder(os.path.realpath(path))
        handed = f"{folder.at('listing')} a --sizes 8\n"
        archive, cargo = ["archive begins", "archive ends"], [BUILT.format(folder.path)]
        yield compare("./sizing, nothing built, --help", folder.run("--help")[3], [])
        yield compare("./sizing, nothing built", folder.run("a", "--sizes", "8"), [0, handed, "", archive + cargo])
        yield compare("./sizing, all built", folder.run("a", "--sizes", "8"), [0, handed, "", cargo])
        os.remove(folder.at("target/staticlib/libpagepool.a"))
        folder.write("fails", "")
        failed = "archive: why\nsizing: the archive could not be written\n"
        yield compare("./sizing, the archive fails", folder.run("a"), [2, "", failed, archive])
        elsewhere = folder.run("a", "--sizes", "8", POOL_ARCHIVES=folder.at("nosuch"))
        yield compare("./sizing, no archive elsewhere", elsewhere, [2, "", "sizing: the command could not be built\n", cargo])
        folder.write("elsewhere/libpagepool.a", "")
        elsewhere = folder.run("a", "--sizes", "8", POOL_ARCHIVES=folder.at("elsewhere"))
        yield compare("./sizing, an archive elsewhere", elsewhere, [0, handed, "", cargo])
        os.remove(folder.at("fails"))
        if shutil.which("flock"):
            first = folder.started("a")
            time.sleep(0.05)
            second = folder.started("a")
            ended = [run.communicate() and run.returncode for run in (first, second)]
            built = [line for line in folder.log() if line.startswith("archive")]
            yield compare("./sizing, two at once", [*ended, *built], [0, 0, *archive])
        os.remove(folder.at("tools/cargo"))
        yield compare("./sizing, no cargo", folder.run("a"), [2, "", "sizing: cargo, which builds the command, is not found\n", []])
