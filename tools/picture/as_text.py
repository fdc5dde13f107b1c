"""A picture for terminals: one row for each column of the timeline, and the stores side by side."""
from picture.timeline import End, Kind

LIVE, MERGING, BEHIND, GONE = "│", "┊", "·", " "
MARKS = {Kind.REFUSED: "×", Kind.PREPARE: "◆", Kind.ROLLBACK: "◇"}
TAKEN, CARRIED = "●", "○"
LEGEND = (
    "● taken   ○ taken from a commit, which carried it   × refused   ◆ prepares a merge   ◇ calls it off",
    "┊ waits to be taken over   · stays behind: another store came further",
)


class Lanes:
    """The places of a store's regions, from left to right as their keys. A lane whose region has ended is used again."""

    def __init__(self, store):
        self.order, self.held, self.of = [], {}, {}
        for band in sorted(store.bands.values(), key=lambda it: (it.born, it.shapes[0][1].start)):
            if band.parent is None:
                self.new(band, len(self.order))

    def new(self, band, place):
        lane = len(self.held)
        self.order.insert(place, lane)
        self.hold(band, lane)

    def hold(self, band, lane):
        self.held[lane], self.of[band.region] = band, lane

    def is_free(self, lane, at):
        held = self.held[lane]
        return held.ended is not None and held.ended < at

    def add(self, band, beside, to_left, at):
        """A lane for a new region, next to the one beside it."""
        place = self.order.index(self.of[beside])
        near = place - 1 if to_left else place + 1
        if 0 <= near < len(self.order) and self.is_free(self.order[near], at):
            self.hold(band, self.order[near])
        else:
            self.new(band, place if to_left else place + 1)


def lanes_of(store):
    """All lanes of a store: which lane each region has."""
    lanes = Lanes(store)
    born = {}
    for band in store.bands.values():
        if band.parent is not None:
            born.setdefault((band.born, band.parent), []).append(band)
    for (at, parent), children in sorted(born.items()):
        to_left = children[0].range_at_birth().start < store.bands[parent].range_after(at).start
        beside = parent
        for band in reversed(children) if to_left else children:
            lanes.add(band, beside, to_left, at)
            beside = band.region
    return {region: lanes.order.index(lane) for region, lane in lanes.of.items()}, len(lanes.order)


class Block:
    """The rows of one store."""

    def __init__(self, store):
        self.store = store
        self.lanes, self.count = lanes_of(store)
        self.step = 1 + max((len(str(region)) for region in store.bands), default=1)
        self.width = max(self.step * self.count, len("store %d" % store.name) + 1)
        self.heard = {}
        for band in store.bands.values():
            for at in (band.born, band.ended):
                if at is not None:
                    self.heard.setdefault(at, []).append(band)
        self.live = {band.region for band in store.bands.values() if band.born < 0}

    def blank(self):
        return [" "] * (self.step * self.count)

    def put(self, row, band, text):
        """Writes a text with its last sign in the region's lane."""
        end = self.step * (self.lanes[band.region] + 1) - 1
        row[end - len(text):end] = text

    def start(self):
        row = self.blank()
        for region in sorted(self.live):
            self.put(row, self.store.bands[region], str(region))
        return "".join(row)

    def row(self, at, column):
        """The row of one column: each region that is there, and what this one does to them."""
        row, bands = self.blank(), self.store.bands
        for region in self.live:
            self.put(row, bands[region], self.standing(bands[region], at))
        taker = bands.get(column.region)
        if taker is not None and at in taker.takes:
            self.put(row, taker, CARRIED if at in taker.carried else MARKS.get(column.kind, TAKEN))
            self.link(row, taker, at)
        return "".join(row)

    def standing(self, band, at):
        if band.stays is not None and band.stays < at:
            return BEHIND
        is_merging = any(begin < at and (end is None or at <= end) for begin, end in band.merging)
        return MERGING if is_merging else LIVE

    def link(self, row, taker, at):
        """The forks and joins of one step: regions that begin are named, and those that end bend towards the taker."""
        for band in self.heard.get(at, []):
            if band.born == at:
                self.live.add(band.region)
                self.put(row, band, str(band.region))
            else:
                self.live.discard(band.region)
                is_left = self.lanes[band.region] < self.lanes[taker.region]
                self.put(row, band, "╳" if band.end is End.REMOVED else "╰" if is_left else "╯")
            if band is not taker:
                self.join(row, taker, band)

    def join(self, row, one, other):
        ends = sorted(self.step * (self.lanes[band.region] + 1) - 2 for band in (one, other))
        for place in range(ends[0] + 1, ends[1]):
            if row[place] == " ":
                row[place] = "─"


def ends_of(store):
    """A line for each region of a store: its keys at the end, and how far it came."""
    for region, band in sorted(store.bands.items()):
        told = "%s, applied %d" % (band.range.told(), band.applied)
        if band.end is End.MERGED:
            told = "merged into %d at %d" % (band.into, band.applied)
        elif band.end is End.REMOVED:
            told += ", removed"
        elif band.into is not None:
            told += ", merging into %d" % band.into
        if band.stays is not None:
            told += ", %d behind" % band.behind if band.behind else ", taken over elsewhere"
        yield "  %-4d %s" % (region, told)


def text_of(picture):
    """The whole picture."""
    blocks = [Block(store) for store in picture.stores.values()]
    heads = ["", "", *(("store %d" % block.store.name) for block in blocks)]
    rows = [["", "from the start", *(block.start() for block in blocks)]]
    for at, column in enumerate(picture.columns):
        told = column.told() + (": " + " ".join(column.reply) if column.kind is Kind.REFUSED else "")
        rows.append([column.name(), told, *(block.row(at, column) for block in blocks)])
    widths = [max(len(row[place]) for row in (heads, *rows)) for place in range(len(heads))]
    lines = ["   ".join(text.ljust(width) for text, width in zip(row, widths)).rstrip() for row in (heads, *rows)]
    for store in picture.stores.values():
        lines += ["", "store %d" % store.name, *ends_of(store)]
    return "\n".join([*lines, "", *LEGEND, ""])
