"""A workload by request A.10's sentences: its records, each by the lines before it, and the sum of its lines. Shares no code with what is
tested."""

# the listing's pool
FRAMES = 4
PAGES = 16

ROOT, FIX, UNFIX, LINK, EVICT, FIND = 1, 2, 3, 5, 7, 9
MOST_PINS = 65535
WIDTH = 0xFFFFFFFF


def draws(seed):
    """The numbers that the generator gives: shifts left 13, right 17, left 5, each taken exclusive or; a seed of 0 is read as 1."""
    number = seed or 1
    while True:
        number = (number ^ number << 13) & WIDTH
        number = number ^ number >> 17
        number = (number ^ number << 5) & WIDTH
        yield number


class Known:
    """Which page is in which frame, and the root's pins, by the lines of a listing alone."""

    def __init__(self):
        self.held = {0: 0}
        self.pins = 0

    def feed(self, record, line):
        """An accepted fix answers where its page is, and what was in that frame has left it. An accepted evict takes its page out."""
        call, refusal, frame, page = line
        if refusal != 0:
            return
        if call == FIX:
            self.held[frame] = page
        elif call == EVICT:
            self.held = {frame: held for frame, held in self.held.items() if held != record[2]}
        elif call == ROOT:
            self.pins += 1
        elif call == UNFIX and record[2] == 0:
            self.pins -= 1

    def agrees(self, record, line):
        """Whether a line of root or find, or evict's 11, is what this gives."""
        call, refusal, frame, page = line
        if call == ROOT:
            return (refusal, frame, page) == (13 if self.pins == MOST_PINS else 0, 0, 0)
        if call not in (EVICT, FIND):
            return True
        at = [frame for frame, held in self.held.items() if held == record[2]]
        if call == FIND:
            return (refusal, frame, page) == ((0, at[0], record[2]) if at else (0, 0, 0))
        return (refusal == 11) == (not at)


def record_of(numbers, known):
    """The record that five draws make on what the calls before left. "Link's parent page is the page resident in the drawn frame, else 0."
    """
    call, frame, page, slot, offset = (next(numbers) % end for end in (9, FRAMES, PAGES, 16, 193))
    parent = known.held.get(frame, 0) if call + 1 == LINK else 0
    return bytes([call + 1, frame]) + page.to_bytes(2, "little") + bytes([slot, offset, 0]) + parent.to_bytes(2, "little") + bytes(7)


def checksum(text):
    """POSIX's cksum, bit by bit: the text and then its length, from the lowest byte on, divided by the polynomial, and turned over."""
    size = len(text).to_bytes((len(text).bit_length() + 7) // 8, "little")
    rest = 0
    for byte in text + size:
        rest ^= byte << 24
        for _ in range(8):
            rest = (rest << 1 ^ 0x04C11DB7) & WIDTH if rest >> 31 else rest << 1
    return rest ^ WIDTH
