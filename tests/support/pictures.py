"""The marks of a picture, as listings say that they have to be, and as a page draws them."""

import html.parser
import re

COLUMNS, ROWS = 256, 64
CODE, FRAME = 0x0001_0000, 0x1000_0000
LAYERS = ("fetch", "load", "store", "both", "one", "other")
CELL = re.compile(r"M(\d+),(\d+)h1")
LINE = re.compile(r"M(\d+),-\.5v(\d+)")
HELD = {
    "fetched": "executed",
    "load": "load",
    "store": "store",
    "one": "in the first run alone",
    "other": "in the second run alone",
}


def steps_of(listing):
    """What a listing shows in each step: the program counter, and the event or None."""
    steps = []
    for line in listing:
        name, *shown = line.split()
        if name == "pc":
            steps.append((int(shown[0], 16), None))
        elif name != "stop":
            address = int(shown[0], 16)
            steps[-1] = (steps[-1][0], (name, address, shown[1]))
    return steps


def share(count, places):
    return max(count - 1, 0) // places + 1


def span(place, count, places):
    """The first and the last of the things that a place holds."""
    first = place * share(count, places)
    return first, min(first + share(count, places), count) - 1


def used(count, places):
    return max(count - 1, 0) // share(count, places) + 1


class Picture:
    """The marks of two runs of an image, each a list of steps, over so many words of code and of frame."""

    def __init__(self, one, other, code_words, frame_words):
        self.longest = max(len(one), len(other))
        self.words = {"code": (CODE, code_words), "frame": (FRAME, frame_words)}
        self.cells, self.parting = {}, None
        for step in range(self.longest):
            seen = [run[step] if step < len(run) else None for run in (one, other)]
            if seen[0] != seen[1] and self.parting is None:
                self.parting = step
            for number, name in enumerate(("one", "other")):
                if seen[number]:
                    self.put_step(step, name, seen[number], seen[1 - number])

    def put_step(self, step, name, seen, beside):
        pc, event = seen
        self.put(step, pc, "fetched", name, beside is None or beside[0] != pc)
        if event:
            kind, address, _ = event
            differs = beside is None or beside[1] != event
            if kind in ("load", "store"):
                self.put(step, address, kind, name, differs)
            else:
                self.put(step, pc, "fetched", name, differs)

    def put(self, step, address, kind, name, differs):
        column = step // share(self.longest, COLUMNS)
        held = self.cells.setdefault((*self.row(address), column), set())
        held.add(kind)
        if differs:
            held.add(name)

    def row(self, address):
        for area, (base, words) in self.words.items():
            word = (address - base) // 4
            if address >= base and word < words:
                return area, word // share(words, ROWS)
        return "elsewhere", 0

    def drawn(self):
        """The cells of each layer of each area, by column and row."""
        layers = {(area, layer): set() for area in ("frame", "code", "elsewhere") for layer in LAYERS}
        for (area, row, column), held in self.cells.items():
            both = {"load", "store"} <= held
            base = "both" if both else "load" if "load" in held else "store" if "store" in held else "fetch"
            for layer in [base, *held & {"one", "other"}]:
                layers[area, layer].add((column, row))
        return layers

    def hovers(self):
        """What is said of each cell of each area, by column and row."""
        hovers = {}
        for (area, row, column), held in self.cells.items():
            first, last = span(column, self.longest, COLUMNS)
            steps = f"step {first}" if first == last else f"steps {first} to {last}"
            addresses = ""
            if area in self.words:
                base, words = self.words[area]
                low, high = span(row, words, ROWS)
                addresses = f", {base + 4 * low:08x} to {base + 4 * high + 3:08x}"
            does = "".join(", " + text for kind, text in HELD.items() if kind in held)
            hovers[area, (column, row)] = steps + addresses + does
        return hovers

    def lines(self):
        """Where a line is drawn in each area, and how long it is."""
        if self.parting is None:
            return {}
        column = self.parting // share(self.longest, COLUMNS)
        return {area: (column, height) for area, (_, height) in self.boxes().items()}

    def boxes(self):
        """The width and the height of each area, in cells."""
        columns = used(self.longest, COLUMNS)
        heights = {area: used(words, ROWS) for area, (_, words) in self.words.items()}
        return {area: (columns, height) for area, height in {**heights, "elsewhere": 1}.items()}


class Page(html.parser.HTMLParser):
    """What a page draws and says."""

    def __init__(self, text):
        super().__init__()
        self.area, self.inside = None, []
        self.layers, self.boxes, self.texts, self.outside = {}, {}, {}, []
        self.hovers, self.lines, self.cell = {}, {}, None
        self.feed(text)
        self.close()

    def handle_starttag(self, tag, attributes):
        attributes = dict(attributes)
        if tag != "meta":
            self.inside.append(attributes.get("id"))
        self.outside += [value for name, value in attributes.items() if name in ("src", "href", "data")]
        if tag == "svg":
            self.area = attributes["id"]
            box = attributes.get("viewbox", attributes.get("viewBox"))
            self.boxes[self.area] = tuple(int(number) for number in box.split()[2:])
        if tag == "path" and "class" not in attributes:
            self.cell = self.area, tuple(int(number) for number in CELL.fullmatch(attributes["d"]).groups())
        elif tag == "path" and attributes["class"] == "parting":
            self.lines[self.area] = tuple(int(number) for number in LINE.fullmatch(attributes["d"]).groups())
        elif tag == "path":
            cells = [(int(column), int(row)) for column, row in CELL.findall(attributes["d"])]
            whole = CELL.sub("", attributes["d"]) == "" and len(cells) == len(set(cells))
            key = self.area, attributes["class"]
            self.layers[key] = set(cells) if whole and key not in self.layers else None

    def handle_endtag(self, tag):
        if tag == "path":
            self.cell = None
        if self.inside:
            self.inside.pop()

    def handle_data(self, data):
        if self.cell and data.strip():
            self.hovers[self.cell] = self.hovers.get(self.cell, "") + data
        if self.inside and self.inside[-1]:
            name = self.inside[-1]
            self.texts[name] = self.texts.get(name, "") + data


def differences(page, picture):
    """What is wrong with a page, beside the marks that it has to have."""
    problems = [f"it needs {page.outside}"] if page.outside else []
    if page.boxes != picture.boxes():
        problems.append(f"areas are {page.boxes}, and not {picture.boxes()}")
    if page.lines != picture.lines():
        problems.append(f"lines are {page.lines}, and not {picture.lines()}")
    wanted = picture.hovers()
    for cell in sorted({*wanted, *page.hovers}):
        if page.hovers.get(cell) != wanted.get(cell):
            problems.append(f"{cell} says {page.hovers.get(cell)}, and not {wanted.get(cell)}")
    drawn = picture.drawn()
    for key in sorted({*drawn, *page.layers}):
        if page.layers.get(key) != drawn.get(key):
            problems.append(f"{key} has {page.layers.get(key)}, and not {drawn.get(key)}")
    return problems
