"""Reads a picture of heard and missing seconds from its own elements, and compares it with the seconds that were heard, of one rack or of two."""
import collections
import re
import xml.etree.ElementTree

from seconds import at, number, told

SVG = "{http://www.w3.org/2000/svg}"
MISSING = "#c62828"
LINES = {"a minute": 60, "ten minutes": 600, "an hour": 3600, "a day": 86400}
LABELS = {60: slice(11, 16), 600: slice(11, 16), 3600: slice(11, 16), 86400: slice(0, 10)}
ELEMENTS = {"svg", "title", "desc", "rect", "g", "text", "path", "circle"}
TOTALS = r"Heard ([\d,]+) of ([\d,]+) seconds? \((less than 0.01|[\d.]+) %\), (?:([\d,]+) missing in ([\d,]+) gaps?|none missing)"
TOGETHER = r"Seconds that both racks heard: ([\d,]+); rack 0 alone: ([\d,]+); rack 1 alone: ([\d,]+); missing in both: ([\d,]+)"
TIME = r"\d{4}-\d\d-\d\d \d\d:\d\d:\d\d"

Piece = collections.namedtuple("Piece", "heard missing first last x y width")


class Picture:
    # what each title begins with
    lead = ""

    def __init__(self, text):
        self.root = xml.etree.ElementTree.fromstring(text)
        self.words = [element.text for element in self.root.iter(SVG + "text")]
        self.line = LINES[self.one(r"One line is (.*), one column is .*\.")[1]]
        ticks = [int(rect.get("x")) for rect in self.group("ticks").iter(SVG + "rect")]
        self.left, self.right = min(ticks), max(ticks)

    def one(self, pattern):
        """The only words that are so."""
        [found] = filter(None, (re.fullmatch(pattern, words) for words in self.words))
        return found

    def group(self, name):
        [found] = [group for group in self.root.iter(SVG + "g") if group.get("id") == name]
        return found

    def strips(self, rack):
        """The groups of one of two racks, in order."""
        return [group for group in self.group("lines") if group.get("class") == "rack-%d" % rack]

    def of_rack(self, rack, racks):
        """What is drawn and said of a rack alone."""
        return Strips(self, rack) if racks > 1 else self

    def within(self):
        return [self.group("lines")]

    def elements(self, tag):
        """Those of the lines that are of this rack."""
        return [element for group in self.within() for element in group.iter(SVG + tag)]

    def marks(self, kind):
        return [group for group in self.elements("g") if group.get("class") == kind]

    def pieces(self, kind):
        """What the title of each piece says, and where it stands."""
        for group in self.marks(kind):
            title, rect = group.find(SVG + "title").text, group.find(SVG + "rect")
            counts = {word: int(count) for word, count in re.findall(r"(heard|missing) (\d+) s", title)}
            ends = [number(at(text)) for text in re.findall(TIME, title)]
            yield Piece(counts.get("heard", 0), counts.get("missing", 0), ends[0], ends[-1] + 1, *(int(rect.get(key)) for key in ("x", "y", "width")))

    def sums(self):
        """The numbers at the right: missing seconds, and those heard again."""
        sums = {True: 0, False: 0}
        for text in self.elements("text"):
            if int(text.get("x")) > self.right:
                sums[text.get("fill") == MISSING] += as_number(text.text)
        return sums[True], sums[False]

    def triangles(self):
        """The points of those that stand above a missing second."""
        paths = [path.get("d") for path in self.elements("path") if path.get("fill") == MISSING]
        found = [re.fullmatch(r"M(\d+) (\d+)h(\d+)l-(\d+) (\d+)z", path) for path in paths]
        corners = [tuple(map(int, match.groups())) for match in found if match]
        return [(x + width - back, y + down) for x, y, width, back, down in corners]


class Strips(Picture):
    """One of two racks: its bands in each line, and the words between its heading and the next."""

    def __init__(self, drawn, rack):
        self.root, self.line, self.left, self.right, self.rack = drawn.root, drawn.line, drawn.left, drawn.right, rack
        self.lead = "rack %d: " % rack
        heads = [at for at, words in enumerate(drawn.words) if re.match(r"Rack \d: ", words)] + [len(drawn.words)]
        self.words = drawn.words[heads[rack]:heads[rack + 1]]

    def within(self):
        return self.strips(self.rack)


def as_number(text):
    return int((text or "0").replace(",", ""))


class Wanted:
    """What a picture has to show of seconds, in any order and each as often as it was heard."""

    def __init__(self, seconds):
        counts = collections.Counter(seconds)
        self.different = set(counts)
        self.first, self.last = (told(min(counts)), told(max(counts))) if counts else (None, None)
        self.again = sum(count > 1 for count in counts.values())
        self.leap = {told(second) for second in counts if second[1] == 60}
        self.heard = spans((number(second), number(second) + (second[1] < 60)) for second in counts)
        self.missing = [(end, begin) for (_, end), (begin, _) in zip(self.heard, self.heard[1:])]
        self.seconds = len(counts) - len(self.leap), sum(end - begin for begin, end in self.missing)


def spans(parts):
    """Spans in order, those that touch joined. A second 60 is one without a length, which parts two gaps and joins no run."""
    out = []
    for begin, end in sorted(parts):
        if out and out[-1][1] == begin:
            out[-1][1] = end
        else:
            out.append([begin, end])
    return [tuple(span) for span in out]


def faults(text, *logs):
    """All that is wrong with a picture of the seconds of one rack, or of two."""
    try:
        drawn = Picture(text)
        found = list(page_faults(drawn))
        racks = [Wanted(seconds) for seconds in logs]
        for rack, wanted in enumerate(racks):
            of_rack = drawn.of_rack(rack, len(racks))
            found += [*word_faults(of_rack, wanted), *line_faults(of_rack, wanted), *place_faults(of_rack)]
        return found + (list(pair_faults(drawn, *racks)) if len(racks) == 2 else [])
    except (xml.etree.ElementTree.ParseError, KeyError, ValueError, IndexError) as error:
        return [repr(error)]


def page_faults(drawn):
    """It is one page of words that can be read, and needs nothing else."""
    root = drawn.root
    width, height = root.get("width"), root.get("height")
    if root.get("viewBox") != "0 0 %s %s" % (width, height) or root.get("role") != "img":
        yield "page: %s" % root.attrib
    if [child.tag for child in root][:2] != [SVG + "title", SVG + "desc"]:
        yield "title and description are not first"
    for element in root.iter():
        if element.tag.replace(SVG, "") not in ELEMENTS or "href" in str(element.attrib):
            yield "element %s %s" % (element.tag, element.attrib)
        if element.tag == SVG + "text" and int(element.get("font-size")) < 11:
            yield "small letters: %s" % element.text
        right, bottom = (int(element.get(place, 0)) + int(element.get(size, 0)) for place, size in (("x", "width"), ("y", "height")))
        if right > int(width) or bottom > int(height):
            yield "beyond the page: %s" % element.attrib


def word_faults(drawn, wanted):
    """The numbers in words; no part is rounded up to the whole, and none that was heard down to nothing."""
    if not wanted.different:
        if "No second was heard" not in drawn.words or any(re.fullmatch(TOTALS, words) for words in drawn.words):
            yield "nothing was heard: %s" % drawn.words[:5]
        return
    found = drawn.one(TOTALS)
    leap = len(wanted.leap)
    heard, lost = wanted.seconds[0] + leap, wanted.seconds[1]
    if [as_number(text) for text in (found[1], found[2], found[4], found[5])] != [heard, heard + lost, lost, len(wanted.missing)]:
        yield "%s: %d heard, %d missing in %d gaps" % (found[0], heard, lost, len(wanted.missing))
    exact = 100 * heard / (heard + lost)
    share = 0.005 if found[3].startswith("less") else float(found[3])
    if abs(share - exact) > 0.01 or (found[3] == "100") != (lost == 0) or share == 0:
        yield "%s: %f percent" % (found[0], exact)
    if drawn.one(r"Time strings of form \w+, from (.*)")[1] != "%s to %s" % (wanted.first, wanted.last):
        yield "first and last second: %s to %s" % (wanted.first, wanted.last)


def line_faults(drawn, wanted):
    """Each second is in one piece of its kind, and the sums are those of the pieces."""
    pieces = {kind: list(drawn.pieces(kind)) for kind in ("heard", "missing", "mixed", "dense", "gathered")}
    every = [piece for kind in pieces.values() for piece in kind]
    sums = sum(piece.heard for piece in every), sum(piece.missing for piece in every)
    if sums != wanted.seconds:
        yield "heard and missing %s, not %s" % (sums, wanted.seconds)
    gathered = sum(piece.missing for piece in pieces["gathered"])
    if drawn.sums() != (wanted.seconds[1] - gathered, wanted.again):
        yield "sums at the right %s, not %s" % (drawn.sums(), (wanted.seconds[1] - gathered, wanted.again))
    if not pieces["mixed"] and not pieces["dense"]:
        with_length = lambda parts: [part for part in parts if part[0] < part[1]]
        if spans((piece.first, piece.last) for piece in pieces["heard"]) != spans(with_length(wanted.heard)):
            yield "other seconds are drawn as heard"
        if spans((piece.first, piece.last) for kind in ("missing", "gathered") for piece in pieces[kind]) != spans(wanted.missing):
            yield "other seconds are drawn as missing"
    for piece in every:
        if piece.heard + piece.missing != piece.last - piece.first:
            yield "a piece of other seconds than it says: %s" % (piece,)
    leap = [group.find(SVG + "title").text for group in drawn.marks("leap")]
    if sorted(leap) != sorted(drawn.lead + "leap second heard: " + second for second in wanted.leap):
        yield "leap seconds %s, not %s" % (leap, wanted.leap)


def place_faults(drawn):
    """Each piece stands where its time is and is as wide as its seconds, none covers another, none is narrower than a pixel."""
    scale = (drawn.right - drawn.left) / drawn.line
    # seconds of a column, of which the first and the last of the log may have some outside
    column = max(1, round(2 / scale)) if scale < 2 else 1
    bands = {}
    for kind in ("heard", "missing", "mixed", "dense"):
        for piece in drawn.pieces(kind):
            begin = piece.first % drawn.line // column * column
            end = ((piece.last - 1) % drawn.line // column + 1) * column
            if (piece.x - drawn.left, piece.width) != (begin * scale, (end - begin) * scale) or piece.width < 1:
                yield "%s stands elsewhere: %s" % (kind, piece)
            bands.setdefault(piece.y, []).append((piece.x, piece.x + piece.width))
    for parts in map(sorted, bands.values()):
        for (_, end), (begin, _) in zip(parts, parts[1:]):
            if begin < end:
                yield "covered from %d to %d" % (begin, end)


def pair_faults(drawn, first, second):
    """In each line rack 0 stands above rack 1, both are of its time and as long as it, and the words tell what they have in common."""
    lines = list(zip(drawn.strips(0), drawn.strips(1)))
    order = [group.get("class") for group in drawn.group("lines") if group.tag == SVG + "g"]
    if order != ["rack-0", "rack-1"] * len(lines) or not lines:
        yield "racks in turn: %s" % order[:9]
    below = 0
    for strips in lines:
        for rack, strip in enumerate(strips):
            marks = {id(rect) for mark in strip if mark.get("class") in ("leap", "again") for rect in mark.iter(SVG + "rect")}
            rects = [rect for rect in strip.iter(SVG + "rect") if id(rect) not in marks]
            top, bottom = min(int(rect.get("y")) for rect in rects), max(int(rect.get("y")) + int(rect.get("height")) for rect in rects)
            if top < below:
                yield "rack %d at %d is above %d" % (rack, top, below)
            below = bottom
            if {x for rect in rects for x in range(int(rect.get("x")), int(rect.get("x")) + int(rect.get("width")))} != set(range(drawn.left, drawn.right)):
                yield "rack %d at %d is not as long as its line" % (rack, top)
            names = [text.text for text in strip.iter(SVG + "text") if int(text.get("x")) < drawn.left]
            titles = [title.text for title in strip.iter(SVG + "title")]
            if names != ["rack %d" % rack] or not all(title.startswith("rack %d: " % rack) for title in titles):
                yield "names of rack %d at %d: %s %s" % (rack, top, names, titles[:3])
    yield from label_faults(drawn)
    found = [re.fullmatch(TOGETHER, words) for words in drawn.words]
    both = first.different & second.different
    wanted = [len(both), len(first.different - both), len(second.different - both), common(first.missing, second.missing)]
    wanted = [wanted] if first.different and second.different else []
    if [[as_number(text) for text in match.groups()] for match in found if match] != wanted:
        yield "together: %s" % wanted


def common(first, second):
    """How many seconds two lists of spans have both."""
    return sum(max(0, min(a[1], b[1]) - max(a[0], b[0])) for a in first for b in second)


def label_faults(drawn):
    """Both strips behind a label are of the line that it names."""
    label = None
    for element in drawn.group("lines"):
        if element.tag == SVG + "text":
            label = element.text
        pieces = [title.text for mark in element.iter(SVG + "g") if mark.get("class") in ("heard", "missing", "mixed", "dense") for title in mark.iter(SVG + "title")]
        for title in pieces:
            begin = number(at(re.search(TIME, title)[0])) // drawn.line * drawn.line
            if told(divmod(begin, 60))[LABELS[drawn.line]] != label:
                yield "beside the label %s: %s" % (label, title)
