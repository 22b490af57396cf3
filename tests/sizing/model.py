"""What the command has to say of some recordings: the request in plain Python, by sets and by a cache that is simply run."""
import collections

DEPTHS = 4095
MOST_RECORDINGS = 65535


def depths(recording):
    """The depth of each reference: 1 plus the count of different other pages since the last one to the same page; none for a first one."""
    last = {}
    for at, page in enumerate(recording):
        yield 1 + len(set(recording[last[page] + 1:at])) if page in last else None
        last[page] = at


def hits(recording, frames):
    """The hits of a cache of so many frames that is empty at the start and replaces the page least recently used."""
    cache, count = [], 0
    for page in recording:
        if page in cache:
            count += 1
            cache.remove(page)
        elif len(cache) == frames:
            if not frames:
                continue
            del cache[0]
        cache.append(page)
    return count


def grouped(number):
    return f"{number:,}"


def several(number, noun):
    return f"{grouped(number)} {noun}{'' if number == 1 else 's'}"


def per_cent(part, whole):
    """Two decimals, the rest cut off."""
    return f"{part * 10000 // whole / 100:.2f}%"


class Tally:
    """Recordings, summed."""

    def __init__(self, recordings):
        self.recordings = recordings
        self.references = sum(map(len, recordings))
        self.counts = collections.Counter(depth for recording in recordings for depth in depths(recording))
        self.first = self.counts.pop(None, 0)
        self.level = max(self.counts, default=0)
        self.within = [0]
        for depth in range(1, DEPTHS + 1):
            self.within.append(self.within[-1] + self.counts[depth])

    def share(self, size):
        return self.within[min(size, DEPTHS)]

    def per_cent(self, size):
        return per_cent(self.share(size), self.references)

    def depth_lines(self):
        return [f"depth {depth} {self.counts[depth]} {self.within[depth]}" for depth in range(1, DEPTHS + 1)]

    def size_lines(self, sizes):
        return [f"size {size} {self.share(size)} {self.references} {self.per_cent(size)}" for size in sizes]

    def summary(self):
        """The two lines on standard error."""
        read = f"{several(len(self.recordings), 'recording')}, {several(self.references, 'reference')}"
        read += f"; first references, which never hit: {grouped(self.first)}"
        if not self.level:
            return [read, "no page comes twice in its recording, so that no cache hits"]
        on = f"the largest depth is {grouped(self.level)}: from {several(self.level, 'frame')} on a cache hits {grouped(self.within[-1])}"
        return [read, f"{on} of {several(self.references, 'reference')}, {self.per_cent(self.level)}"]
