"""The command ./workload: what it writes, what it says on standard error, and how it ends; and its records replayed, also in words."""
import os
import pty
import re
import resource
import subprocess
import sys

import shared
from shared import CALLS, RECORD, ROOT, compare

COMMAND = "./workload"
MOST = 4294967295
SAID = "has to be a decimal number up to 4294967295, and"
# what is no decimal number, and what is one too large
NONE = ["12x", "", "-1", "+1", "0x10", " 1", "1 ", "1e3", "1.0", "1,000", "١", "1\n", "-"]
LARGER = [str(MOST + 1), "9" * 100, "0" * 30 + str(MOST + 1), "18446744073709551617"]
# numbers as they may be written, and what they are
WRITTEN = [("010", 10), ("08", 8), ("00000000000000000001", 1), ("0", 0), ("000", 0), (str(MOST), MOST), ("0" * 30 + str(MOST), MOST)]
WORDS = "target/cargo/release/words"


def limited():
    """Ends a run that goes on and on: none of these takes a second."""
    resource.setrlimit(resource.RLIMIT_CPU, (2, 2))


def closed():
    limited()
    os.close(1)


def ends(*arguments, preexec_fn=limited, **given):
    return shared.ends(COMMAND, arguments, preexec_fn=preexec_fn, **given)


def said_of(found):
    """What the command says where the program says so."""
    return "".join(f"workload: {line}\n" for line in found[1].splitlines())


def errors():
    """Each use that runs nothing, with what it says."""
    both = "give a seed and a count: ./workload SEED COUNT or ./workload --records SEED COUNT"
    for arguments in [], ["1"], ["1", "2", "3"], ["--records"], ["--records", "1"], ["--records", "1", "2", "3"]:
        yield arguments, both
    for option in "--nosuch", "-r", "--", "--record", "--records=7":
        yield [option, "1", "2"], f"no such option: {option}; ./workload --help tells which there are"
        yield ["1", "2", option], f"no such option: {option}; ./workload --help tells which there are"
    for word in NONE:
        yield [word, "1"], f"the seed {SAID} '{word}' is none"
        yield ["--records", "1", word], f"the count {SAID} '{word}' is none"
    for word in LARGER:
        yield [word, "1"], f"the seed {SAID} {word} is larger"
        yield ["--records", "1", word], f"the count {SAID} {word} is larger"


def good(program):
    """Each use that prints lines, with what the program gives for it."""
    for arguments in ["77", "300"], ["0", "256"], ["1", "0"]:
        yield arguments, program(*map(int, arguments), 0)
    for word, number in WRITTEN:
        yield [word, "3"], program(number, 3, 0)
        if number <= 10:
            yield ["3", word], program(3, number, 0)


def terminal():
    """The two ends of a terminal; none where there is none to be had."""
    try:
        return pty.openpty()
    except OSError as error:
        print(f"workload: records for a terminal aren't tried: {error}", file=sys.stderr)
        return ()


def denied():
    """Each use that has nowhere to write to: its name, what came of it, its status, and what it says."""
    for arguments in ["77", "300"], ["--records", "77", "300"], ["77", "300", "--records"]:
        with open("/dev/full", "wb") as full:
            yield f"no room for {arguments}", ends(*arguments, stdout=full), 1, "the output could not all be written"
        yield f"closed output for {arguments}", ends(*arguments, stdout=None, preexec_fn=closed), 2, "standard output is closed"
    words = "records are no text for a terminal: write them to a file, or hand them to ./listing - or ./replay -"
    pair = terminal()
    for theirs in pair[1:]:
        yield "records for a terminal", ends("--records", "77", "300", stdout=theirs), 2, words
    for end in pair:
        os.close(end)


def written(*arguments):
    """The bytes that the command writes, and all that it says."""
    run = subprocess.run([os.path.join(ROOT, COMMAND), *arguments], stdout=subprocess.PIPE, stderr=subprocess.PIPE, check=False, preexec_fn=limited)
    return run.stdout, run.stderr.decode("utf-8", "replace") + (f"exit status {run.returncode}" if run.returncode else "")


def leaves():
    """What the command says to a reader that goes after the first line."""
    run = subprocess.Popen([os.path.join(ROOT, COMMAND), "1", str(MOST)], stdout=subprocess.PIPE, stderr=subprocess.PIPE, preexec_fn=limited)
    run.stdout.readline()
    run.stdout.close()
    said = run.stderr.read().decode("utf-8", "replace")
    run.stderr.close()
    return run.wait() != 0, "checksum" in said


def say(record):
    """A record in the words of ./replay, without the page that a slot names."""
    call, frame, page, slot, offset = record[0], record[1], record[2] + 256 * record[3], record[4], record[5]
    parent = record[7] + 256 * record[8]
    held = f"page {page} in frame {frame}"
    return {
        1: "root",
        2: f"fix slot {slot} of {held}",
        3: f"unfix {held}",
        4: f"write nothing at {offset} of {held}",
        5: f"link page {page} at slot {slot} of page {parent} in frame {frame}",
        6: f"unlink slot {slot} of {held}",
        7: f"evict page {page}",
        8: "settle",
        9: f"find page {page}",
    }[call]


def answer(record, line, sentences):
    """A line in the words of ./replay, without what helps."""
    call, refusal, frame, page = map(int, line.split())
    if refusal:
        return f"refused by rule {refusal}: {sentences[refusal]}"
    if CALLS[call - 1] in ("root", "fix"):
        return f"page {page} in frame {frame}"
    if CALLS[call - 1] == "find":
        return f"in frame {frame}" if page == record[2] else "absent"
    return "done"


def in_words(seed, count):
    """Whether the records are told in words as their lines say, and come back from words as they were."""
    name = f"seed {seed}, {count} calls in words"
    data, _ = written("--records", str(seed), str(count))
    lines = written(str(seed), str(count))[0].decode("ascii").splitlines()
    records = [data[at:at + RECORD] for at in range(0, len(data), RECORD)]
    if (len(records), len(lines)) != (count, count):
        yield compare(name, [len(records), len(lines)], [count, count])
        return
    sentences = {number: sentence for number, _, _, sentence in shared.rules()}
    wanted = [f"{at}  {say(record)}: {answer(record, line, sentences)}" for at, (record, line) in enumerate(zip(records, lines), 1)]
    status, told, said = shared.ends("./replay", ["-"], input=data)
    # the page that a slot names stands beside what is wanted, and what helps behind it
    bare = [re.sub(r" \(page \d+\)", "", line, count=1) for line in told]
    bare = [should if "refused" in should and line.startswith(should) else line for line, should in zip(bare, wanted)]
    yield compare(f"{name}, ./replay", bare + told[len(wanted):], wanted)
    yield compare(f"{name}, ./replay, ends", [status, said], [0, ""])
    text = subprocess.run([os.path.join(ROOT, WORDS), "lines"], input=data, stdout=subprocess.PIPE, check=True).stdout
    back = subprocess.run([os.path.join(ROOT, WORDS), "records"], input=text, stdout=subprocess.PIPE, check=True).stdout
    yield compare(f"{name}, and back", [text.count(b"\n"), back == data], [count, True])


def results(program):
    """Whether each comparison holds; `program` gives what the program writes and says for a seed, a count and a form."""
    # without a limit, since it builds the program where it must
    yield compare("./workload, built", [ends("1", "0", preexec_fn=None)[0]], [0])
    for arguments, words in errors():
        status, lines, said = ends(*arguments)
        yield compare(f"./workload, {arguments}", [status, *lines, said], [2, f"workload: {words}\n"])
    for name, (status, lines, said), status_wanted, words in denied():
        yield compare(f"./workload, {name}", [status, *lines, said], [status_wanted, f"workload: {words}\n"])
    for arguments, found in good(program):
        status, lines, said = ends(*arguments)
        yield compare(f"./workload, {arguments}", [status, *lines, said], [0, *found[0].decode("ascii").splitlines(), said_of(found)])
    for form, arguments in enumerate((["77", "300"], ["--records", "77", "300"])):
        found = program(77, 300, form)
        yield compare(f"./workload, {arguments}, bytes", list(written(*arguments)), [found[0], said_of(found)])
    yield compare("./workload, records after the numbers", list(written("77", "300", "--records")), list(written("--records", "77", "300")))
    records, lines = (written(*form, "77", "300")[0] for form in (["--records"], []))
    listed = shared.ends("./listing", ["-"], input=records)
    yield compare("./workload --records | ./listing -", [*listed[1], listed[0], listed[2]], [*lines.decode("ascii").splitlines(), 0, ""])
    yield compare("./workload, a reader that leaves", list(leaves()), [True, False])
    for seed in (1, 77):
        yield from in_words(seed, 3000)
    status, lines, said = ends("--help")
    yield compare("./workload --help", [status, "./workload --records SEED COUNT" in " ".join(lines), said], [0, True, ""])
