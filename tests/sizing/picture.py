"""The curve that --svg draws, read back and held against the model: where it runs, what is marked and named, and that all can be read."""
import math
import re
import xml.etree.ElementTree

import model

NAMESPACE = "{http://www.w3.org/2000/svg}"
LONGEST = 4096
LINEAR_MOST = 128
# how far a coordinate may be off, since it is written with three decimals; two sizes are 0.019 apart and more
OFF = 0.002
# widths of a sign against the height of its font, on the large side for the common fonts without serifs
WIDTH, WIDTH_BOLD = 0.62, 0.7
CONTRAST = 4.5


class Picture:
    """The parts of a picture."""

    def __init__(self, text):
        self.root = xml.etree.ElementTree.fromstring(text)
        self.groups = {group.get("class"): group for group in self.root.iter(f"{NAMESPACE}g")}
        self.texts = list(self.root.iter(f"{NAMESPACE}text"))
        for text in self.texts:
            text.text = text.text or ""
        curve = [path for path in self.root.iter(f"{NAMESPACE}path") if path.get("class") == "curve"]
        self.steps = list(steps(curve[0].get("d")))

    def words(self, group):
        return [text.text for text in self.groups[group].iter(f"{NAMESPACE}text")]

    def ticks(self, group, place, digits):
        """The numbers along an axis, each with its place."""
        found = [text for text in self.groups[group].iter(f"{NAMESPACE}text") if re.fullmatch(digits, text.text)]
        return {int(re.sub(r"\D", "", text.text)): float(text.get(place)) for text in found}

    def dots(self):
        return [(float(dot.get("cx")), float(dot.get("cy"))) for dot in self.root.iter(f"{NAMESPACE}circle")]


def steps(path):
    """The corners of a path of one move and of lines along the axes."""
    x = y = None
    parts = re.findall(r"([MHV])([\d.]+)(?: ([\d.]+))?", path)
    assert "".join(part[0] + part[1] + (f" {part[2]}" if part[2] else "") for part in parts) == path, path
    for letter, first, second in parts:
        x = float(first) if letter in "MH" else x
        y = float(second) if letter == "M" else float(first) if letter == "V" else y
        yield x, y


def heights(corners, places):
    """The height of the curve at each of some places that rise, the upper end where it goes up there; none before its start."""
    at, height = 0, None
    for place in places:
        while at < len(corners) and corners[at][0] <= place + OFF:
            height = corners[at][1]
            at += 1
        yield height


def box(text):
    """The left, top, right and bottom side of some words, at most."""
    size = float(text.get("font-size", 14))
    wide = len(text.text) * size * (WIDTH_BOLD if text.get("font-weight") == "bold" else WIDTH)
    x, y = float(text.get("x")), float(text.get("y"))
    left = x - {"start": 0, "middle": wide / 2, "end": wide}[text.get("text-anchor", "start")]
    if text.get("transform"):
        return x - size, y - wide / 2, x + size / 4, y + wide / 2
    return left, y - size, left + wide, y + size / 4


def luminance(colour):
    """How light a colour is, as the guidelines for accessible content measure it."""
    parts = [int(colour[at:at + 2], 16) / 255 for at in (1, 3, 5)]
    parts = [part / 12.92 if part <= 0.04045 else ((part + 0.055) / 1.055) ** 2.4 for part in parts]
    return 0.2126 * parts[0] + 0.7152 * parts[1] + 0.0722 * parts[2]


def axis_end(reach):
    """How far the axis of frames goes, and whether it is logarithmic."""
    reach = max(reach, 7)
    if reach > LINEAR_MOST:
        return next((1 << power for power in range(13) if 1 << power > reach), LONGEST), True
    step = next(step for step in (1, 2, 5, 10, 20) if reach // step < 10)
    return (reach // step + 1) * step, False


def faults(text, tally, sizes):
    """What is wrong with a picture of a tally in which some sizes are marked."""
    try:
        picture = Picture(text)
    except xml.etree.ElementTree.ParseError as error:
        yield f"no XML: {error}"
        return
    yield from readable(picture)
    yield from named(picture, tally, sizes)
    yield from drawn(picture, tally, sizes)


def readable(picture):
    """Whether all words lie within the picture, apart from each other, dark on white."""
    left, top, width, height = map(float, picture.root.get("viewBox").split())
    first = next(element for element in picture.root if element.tag not in (f"{NAMESPACE}title", f"{NAMESPACE}desc"))
    if (first.tag, first.get("fill"), first.get("width"), first.get("height")) != (f"{NAMESPACE}rect", "white", "100%", "100%"):
        yield "no white ground"
    boxes = [(text.text, box(text)) for text in picture.texts]
    for words, (start, upper, end, lower) in boxes:
        if start < left or upper < top or end > left + width or lower > top + height:
            yield f"'{words}' is clipped: {start:.0f} {upper:.0f} {end:.0f} {lower:.0f}"
    for at, (words, one) in enumerate(boxes):
        for others, other in boxes[:at]:
            if one[0] < other[2] and other[0] < one[2] and one[1] < other[3] and other[1] < one[3]:
                yield f"'{words}' and '{others}' overlap"
    for text in picture.texts:
        contrast = 1.05 / (luminance(text.get("fill", picture.root.get("fill"))) + 0.05)
        if contrast < CONTRAST:
            yield f"'{text.text}' is too pale: {contrast:.1f}"


def named(picture, tally, sizes):
    """Whether title, axes, level and source are named, and the picture described to those who can't see it."""
    read, level = tally.summary()
    title, description = (picture.root.find(f"{NAMESPACE}{tag}") for tag in ("title", "desc"))
    if picture.root.get("role") != "img" or picture.root.get("aria-labelledby") != f"{title.get('id')} {description.get('id')}":
        yield "no role, or not labelled by title and description"
    told = [f" {name(size)} frame{'' if size == 1 else 's'}: {tally.per_cent(size)}." for size in marked(sizes)[::-1]]
    for part in (read, level, *told):
        if part not in description.text:
            yield f"'{part}' isn't described: '{description.text}'"
    _, is_logarithmic = axis_end(max(tally.level, *marked(sizes), 0))
    shown = [text.text for text in picture.texts]
    levelled = f"level at {tally.per_cent(tally.level)}, from {model.several(tally.level, 'frame')} on: first references never hit"
    for words in (
            title.text,
            "references that hit, per cent of all",
            "frames (logarithmic scale)" if is_logarithmic else "frames",
            levelled if tally.level else "no cache hits: no page comes twice in its recording",
            read,
            *(["hits"] if sizes else []),
    ):
        if words not in shown:
            yield f"'{words}' isn't named"


def marked(sizes):
    """The sizes as they are marked, falling."""
    return sorted({min(size, LONGEST + 1) for size in sizes}, reverse=True)


def name(size):
    return f"over {model.grouped(LONGEST)}" if size > LONGEST else model.grouped(size)


def drawn(picture, tally, sizes):
    """Whether the curve, the level and the marks lie where they have to."""
    sizes = marked(sizes)
    end, is_logarithmic = axis_end(max(tally.level, *sizes, 0))
    frames, shares = picture.ticks("frames", "x", r"[\d,]+"), picture.ticks("hits", "y", r"\d+%")
    if (min(frames), max(frames), min(shares), max(shares)) != (0, end, 0, 100):
        yield f"the axes go from {min(frames)} to {max(frames)} and from {min(shares)} to {max(shares)}, not to {end} and to 100"
        return
    # a number stands a little below the line that it names
    below = shares[0] - max(corner[1] for corner in picture.steps)

    def x_of(count):
        part = math.log(1 + count) / math.log(1 + end) if is_logarithmic else count / end
        return frames[0] + (frames[end] - frames[0]) * min(part, 1)

    def y_of(count):
        return shares[0] - below - (shares[0] - shares[100]) * count / tally.references

    wrong = [tick for tick, x in frames.items() if abs(x - x_of(tick)) > 0.06]
    wrong += [tick for tick, y in shares.items() if abs(y - below - y_of(tally.references * tick / 100)) > 0.06]
    if wrong or not 0 < below < 8:
        yield f"the ticks {wrong} aren't in their places, or {below} below them"
    for count, height in enumerate(heights(picture.steps, map(x_of, range(end + 1)))):
        if height is None or abs(height - y_of(tally.share(count))) > OFF:
            yield f"the curve is at {height} for {count} frames, and should be at {y_of(tally.share(count)):.2f}"
            return
    if abs(picture.steps[0][0] - x_of(0)) > OFF or abs(picture.steps[-1][0] - x_of(end)) > OFF:
        yield "the curve doesn't go from end to end"
    rises = sum(1 for one, other in zip(picture.steps, picture.steps[1:]) if one[1] != other[1])
    if rises != len([count for count in range(1, end + 1) if tally.share(count) != tally.share(count - 1)]):
        yield f"the curve has {rises} steps"
    levels = re.match(r"M[\d.]+ ([\d.]+)H", picture.groups["level"].find(f"{NAMESPACE}path").get("d"))
    if abs(float(levels.group(1)) - y_of(tally.within[-1])) > OFF:
        yield f"the level is at {levels.group(1)}"
    yield from marks(picture, tally, sizes, [(x_of(size), y_of(tally.share(size))) for size in sizes])


def marks(picture, tally, sizes, places):
    """Whether each size has its dot, its guide to a row, and in the row its share."""
    dots = picture.dots()
    if len(dots) != len(places) or any(math.dist(*pair) > 2 * OFF for pair in zip(dots, places)):
        yield f"the dots are {dots}, and should be {places}"
    rows = [text for text in picture.groups["marks"].iter(f"{NAMESPACE}text")]
    wanted = [words for size in sizes for words in (name(size), tally.per_cent(size))]
    if [text.text for text in rows] != wanted + (["frames", "hits"] if sizes else []):
        yield f"the rows are {[text.text for text in rows]}"
    guides = [path.get("d") for path in picture.groups["guides"].iter(f"{NAMESPACE}path")]
    for size, (x, y), guide, row in zip(sizes, places, guides, rows[::2]):
        ends = re.fullmatch(r"M([\d.]+) [\d.]+V([\d.]+)H[\d.]+L[\d.]+ ([\d.]+)H([\d.]+)", guide)
        found = [float(end) for end in ends.groups()]
        if abs(found[0] - x) > OFF or abs(found[1] - y) > OFF or abs(float(row.get("y")) - 5 - found[2]) > 0.06 or found[3] > box(row)[0] + 3:
            yield f"the guide of {size} is {guide}"
    if len(guides) != len(sizes):
        yield f"{len(guides)} guides for {len(sizes)} sizes"
