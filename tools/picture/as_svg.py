"""A picture as SVG: a panel for each store, in it a band for each region, over one order of the entries."""
from xml.sax.saxutils import escape

from picture.timeline import End, Kind
from picture.texts import Unfit

COLUMN, UNIT, GAP = 46, 34, 2
LEFT, RIGHT, HEAD, TITLE, FOOT = 120, 190, 84, 26, 64
MOST_COLUMNS = 1000
# A light and a dark tone for each region, told apart without red and green.
TONES = [
    ("#cfe3f5", "#2a6aa8"),
    ("#fbe0bd", "#a8640f"),
    ("#d5ecd9", "#2f7d4a"),
    ("#ead7ef", "#7d4490"),
    ("#f9d9d4", "#ad4334"),
    ("#d3eeee", "#21787a"),
    ("#efe9c3", "#7c6c12"),
    ("#e0e0e6", "#55555f"),
]
STYLE = """
text { font-family: 'DejaVu Sans', Verdana, sans-serif; font-size: 11px; fill: #333 }
.title { font-size: 13px; font-weight: bold }
.region { font-size: 12px; font-weight: bold }
.small { font-size: 10px; fill: #666 }
.entry { font-size: 10px; fill: #333 }
.grid { stroke: #eee }
.late { font-weight: bold; fill: #ad4334 }
"""


class Keys:
    """Where keys stand: each range between two bounds that occur has the same height."""

    def __init__(self, picture):
        ranges = [range_ for store in picture.stores.values() for band in store.bands.values() for _, range_ in band.shapes]
        starts = sorted({range_.start for range_ in ranges} | {range_.end for range_ in ranges if range_.end is not None})
        self.places = {start: at for at, start in enumerate(starts)}
        self.count = max(len(starts), 1)

    def span(self, range_):
        end = self.count if range_.end is None else self.places[range_.end]
        return self.places[range_.start] * UNIT, end * UNIT


def middle(column):
    return LEFT + (column + 0.5) * COLUMN


def edge(column):
    """Where a column ends. That is the start of the order for column -1."""
    return LEFT + (column + 1) * COLUMN


class Panel:
    """The picture of one store."""

    def __init__(self, store, keys, columns, top):
        self.store, self.keys, self.columns, self.top = store, keys, columns, top
        self.tops = top + TITLE
        self.out = []

    def draw(self, tones):
        self.out.append('<text class="title" x="16" y="%g">store %d</text>' % (self.top + 16, self.store.name))
        for region, band in sorted(self.store.bands.items()):
            self.band(band, tones[region])
        for region, band in sorted(self.store.bands.items()):
            self.marks(band, tones[region])
            self.names(band, tones[region])
        return self.out

    def frames(self, band):
        """The upper and lower edge of a band after each of its columns. A new region begins as a line at its parent's edge."""
        frames = [(at, *self.keys.span(range_)) for at, range_ in band.shapes]
        if band.parent is not None:
            parent = self.store.bands[band.parent]
            upper, lower = self.keys.span(parent.range_after(band.born - 1))
            is_left = frames[0][1] < self.keys.span(parent.range_after(band.born))[0]
            line = upper if is_left else lower
            frames.insert(0, (band.born, line, line))
        else:
            frames.insert(0, frames[0])
        if band.end is End.MERGED:
            upper, lower = frames[-1][1:]
            is_left = any(self.is_taker(other, band) and other.range_after(band.ended - 1).start > band.range.start for other in self.store.bands.values())
            line = upper if is_left else lower
            frames.append((band.ended, line, line))
        return frames

    def is_taker(self, other, band):
        return other.region == band.into and any(at == band.ended for at, _ in other.shapes)

    def last(self, band):
        """Where a band's full colour ends."""
        if band.end is End.MERGED:
            return edge(band.ended)
        if band.end is End.REMOVED:
            return middle(band.ended)
        return edge(band.stays) if band.stays is not None else edge(len(self.columns) - 1)

    def outline(self, band):
        """The path around a band."""
        frames, last = self.frames(band), self.last(band)
        above = self.side(frames, 1, GAP / 2, last)
        below = self.side(frames, 2, -GAP / 2, last)
        back = ["M%g,%g" % above[0], *self.curves(above), "L%g,%g" % below[-1]]
        return " ".join([*back, *self.curves(below[::-1]), "Z"])

    def side(self, frames, which, shift, last):
        """The corners of one edge: it bends in the right half of a column."""
        at, line = frames[0][0], [self.tops + frame[which] + shift * (frame[1] < frame[2]) for frame in frames]
        points = [(middle(at) if at >= 0 else LEFT, line[0])]
        for place, frame in enumerate(frames[1:], 1):
            if frame[0] >= 0:
                points += [(middle(frame[0]), line[place - 1]), (edge(frame[0]), line[place])]
        points.append((last, line[-1]))
        return [point for at, point in enumerate(points) if at == 0 or point != points[at - 1]]

    def curves(self, points):
        for before, point in zip(points, points[1:]):
            if before[1] == point[1]:
                yield "L%g,%g" % point
            else:
                half = (before[0] + point[0]) / 2
                yield "C%g,%g %g,%g %g,%g" % (half, before[1], half, point[1], *point)

    def band(self, band, tone):
        path, name = self.outline(band), "band-%d-%d" % (self.store.name, band.region)
        self.out.append('<clipPath id="%s"><path d="%s"/></clipPath>' % (name, path))
        self.out.append('<path d="%s" fill="%s" stroke="%s" stroke-width="1"/>' % (path, *tone))
        for begin, end in band.merging:
            until = self.last(band) if end is None else edge(end) if band.ended == end else middle(end)
            upper, lower = self.keys.span(band.range_after(begin))
            box = (middle(begin), self.tops + upper, until - middle(begin), lower - upper)
            self.out.append('<rect x="%g" y="%g" width="%g" height="%g" fill="url(#waits)" clip-path="url(#%s)"/>' % (*box, name))
        if band.stays is not None:
            self.shadow(band, tone)

    def shadow(self, band, tone):
        """What a store that is behind has yet to come to: an empty outline up to the end."""
        upper, lower = self.keys.span(band.range)
        begin, end = self.last(band), edge(len(self.columns) - 1)
        if end > begin:
            box = (begin + 1, self.tops + upper + GAP / 2, end - begin - 1, lower - upper - GAP)
            self.out.append('<rect x="%g" y="%g" width="%g" height="%g" fill="none" stroke="%s" stroke-dasharray="2 4"/>' % (*box, tone[1]))

    def centre(self, band, at):
        upper, lower = self.keys.span(band.range_after(at - 1))
        return self.tops + (upper + lower) / 2

    def marks(self, band, tone):
        for at in band.takes:
            column = self.columns[at]
            self.out.append("<g>%s<title>%s</title></g>" % (
                mark(column, middle(at), self.centre(band, at), tone[1], at in band.carried),
                escape("%s  %s: %s" % (column.name(), column.told(), " ".join(column.reply))),
            ))
        if band.end is End.REMOVED:
            self.text("small", middle(band.ended) + 6, self.centre(band, band.ended) + 4, "removed")

    def text(self, kind, x, y, text, more=""):
        self.out.append('<text class="%s" x="%g" y="%g"%s>%s</text>' % (kind, x, y, more, escape(text)))

    def names(self, band, tone):
        """The region's name where it begins, and its keys at both ends."""
        upper, lower = self.keys.span(band.shapes[0][1])
        line = self.tops + (upper + lower) / 2 + 4
        if band.born < 0:
            self.text("region", LEFT - 10, line - 6, "region %d" % band.region, ' text-anchor="end"')
            self.text("small", LEFT - 10, line + 7, band.shapes[0][1].told(), ' text-anchor="end"')
        else:
            self.text("region", edge(band.born) + 4, line, str(band.region), ' style="fill:%s"' % tone[1])
        if band.end is End.LIVE:
            self.ending(band)

    def ending(self, band):
        upper, lower = self.keys.span(band.range)
        line, x = self.tops + (upper + lower) / 2 + 4, edge(len(self.columns) - 1) + 10
        self.text("region", x, line - 6, "region %d" % band.region)
        told = "%s, at %d" % (band.range.told(), band.applied)
        self.text("small", x, line + 7, told)
        if band.stays is not None:
            late = "%d behind" % band.behind if band.behind else "taken over elsewhere"
            self.text("small late", x + 66, line - 6, late)
        elif band.into is not None:
            self.text("small", x + 66, line - 6, "waits for %d" % band.into)


def mark(column, x, y, colour, is_carried):
    """The mark of an entry: a dot, a diamond for a prepare, a square for a rollback, a cross where it was refused.

    What a commit carried is hollow.
    """
    if column.kind is Kind.REFUSED:
        return '<path d="M%g,%g l9,9 m0,-9 l-9,9" stroke="#c62828" stroke-width="2.5"/>' % (x - 4.5, y - 4.5)
    fill = "#fff" if is_carried else colour
    if column.kind is Kind.ROLLBACK:
        return '<rect x="%g" y="%g" width="9" height="9" fill="%s" stroke="%s" stroke-width="1.5"/>' % (x - 4.5, y - 4.5, fill, colour)
    if column.kind is Kind.PREPARE:
        return '<path d="M%g,%g l6,6 l-6,6 l-6,-6 Z" fill="%s" stroke="%s" stroke-width="1.5"/>' % (x, y - 6, fill, colour)
    if len(column.entries) > 1:
        return '<rect x="%g" y="%g" width="24" height="8" rx="4" fill="%s" stroke="%s" stroke-width="1.5"/>' % (x - 12, y - 4, fill, colour)
    return '<circle cx="%g" cy="%g" r="4" fill="%s" stroke="%s" stroke-width="1.5"/>' % (x, y, fill, colour)


WORDS = {
    Kind.SPLIT: "split",
    Kind.PREPARE: "prepare",
    Kind.COMMIT: "merge",
    Kind.ROLLBACK: "rollback",
    Kind.PEERS: "peers",
}


def heads(picture, height):
    """The names of the columns, and a line down each."""
    for at, column in enumerate(picture.columns):
        x = middle(at)
        word = column.reply[0] if column.kind is Kind.REFUSED else WORDS.get(column.kind, "")
        yield '<line class="grid" x1="%g" y1="%d" x2="%g" y2="%g"/>' % (x, HEAD - 12, x, height - FOOT)
        yield '<text class="entry" transform="translate(%g,%d) rotate(-50)">%s<tspan class="small" dx="5">%s</tspan></text>' % (
            x - 2, HEAD - 16, column.name(), escape(word))


def legend(top):
    """What the marks say."""
    x = 16
    samples = [
        ('<circle cx="6" cy="-4" r="4" fill="#555"/>', "an entry"),
        ('<rect x="-4" y="-8" width="20" height="8" rx="4" fill="#555"/>', "several"),
        ('<circle cx="6" cy="-4" r="4" fill="#fff" stroke="#555" stroke-width="1.5"/>', "carried by a merge"),
        ('<path d="M2,-8 l9,9 m0,-9 l-9,9" stroke="#c62828" stroke-width="2.5"/>', "refused"),
        ('<path d="M6,-10 l6,6 l-6,6 l-6,-6 Z" fill="#555"/>', "prepares a merge"),
        ('<rect x="2" y="-9" width="9" height="9" fill="#555"/>', "calls it off"),
        ('<rect x="-4" y="-11" width="20" height="14" fill="#ddd"/><rect x="-4" y="-11" width="20" height="14" fill="url(#waits)"/>', "waits to be taken over"),
        ('<rect x="-4" y="-11" width="20" height="14" fill="none" stroke="#555" stroke-dasharray="2 4"/>', "behind another store"),
    ]
    for shape, told in samples:
        yield '<g transform="translate(%d,%g)">%s<text class="small" x="22" y="0">%s</text></g>' % (x, top, shape, told)
        x += 40 + 6 * len(told)


def tones_of(picture):
    """Each region's tone, the same on every store."""
    regions = sorted({region for store in picture.stores.values() for region in store.bands})
    return {region: TONES[at % len(TONES)] for at, region in enumerate(regions)}


def svg_of(picture):
    """The whole picture."""
    if len(picture.columns) > MOST_COLUMNS:
        raise Unfit("%d columns are too many to draw, and %d may be: --text writes them all" % (len(picture.columns), MOST_COLUMNS))
    keys, tones = Keys(picture), tones_of(picture)
    panel = TITLE + keys.count * UNIT + 12
    width = max(LEFT + len(picture.columns) * COLUMN + RIGHT, 1000)
    height = HEAD + len(picture.stores) * panel + FOOT
    out = [
        '<svg xmlns="http://www.w3.org/2000/svg" width="%d" height="%d" viewBox="0 0 %d %d">' % (width, height, width, height),
        "<style>%s</style>" % STYLE,
        '<defs><pattern id="waits" width="7" height="7" patternUnits="userSpaceOnUse" patternTransform="rotate(45)">'
        '<rect width="2.5" height="7" fill="#fff" fill-opacity="0.85"/></pattern></defs>',
        '<rect width="100%" height="100%" fill="#fff"/>',
        *heads(picture, height),
    ]
    for place, store in enumerate(picture.stores.values()):
        out += Panel(store, keys, picture.columns, HEAD + place * panel).draw(tones)
    return "\n".join([*out, *legend(height - FOOT + 34), "</svg>", ""])
