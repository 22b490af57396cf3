"""Running the command ./sizing, and what has to come of it: its status, what it prints, and what it says on standard error, line by line."""
import shared

NOTHING = "nothing is reported: figures that leave a recording out aren't those of the files"


def all_of(status, lines, said):
    return [f"status {status}", *lines, *(f"says {line}" for line in said)]


def ends(arguments, **given):
    """What comes of a run."""
    status, lines, said = shared.ends("./sizing", arguments, **given)
    return all_of(status, lines, said.splitlines())


def reported(tally, lines):
    """What comes of a run that reports a tally and prints these lines of it."""
    return all_of(0, lines, [f"sizing: {line}" for line in tally.summary()])


def lost(lines, why):
    """What comes of a run whose other output is lost."""
    return all_of(1, lines, [f"sizing: {why}"])


def refused(*why):
    """What comes of a run that makes no sense."""
    return all_of(2, [], [f"sizing: {line}" for line in why])


def uncounted(*faults):
    """What comes of a run on recordings with these faults."""
    return refused(*faults, NOTHING)
