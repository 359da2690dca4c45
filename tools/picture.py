"""The elements of a picture over steps, as an SVG has them; for tools/draw. It isn't proved, and says only what it is given."""
from collections import Counter
from html import escape

WIDTH, LEFT, RIGHT = 960, 150, 64
PLOT = WIDTH - LEFT - RIGHT
ROW = 22                     # a lane
LINE = 17                    # a line of the console
LETTER = 7.25                # the width of a letter of 12 pixels
SMALL = 6.7                  # and of 11
BAR = 3                      # the width of a bar
CLOSE = 4                    # strokes nearer than this stand together
CONSOLE_ROWS = 8
NARROWEST = 13               # a step whose instruction can be read
# Okabe and Ito's colours, which are told apart by all kinds of colour vision
BLUE, ORANGE, GREEN, RED, PURPLE = "#0072b2", "#e69f00", "#009e73", "#d55e00", "#b0548a"
INK, SOFT, GRID, PAPER = "#24292f", "#667079", "#e6e8eb", "#ffffff"
COLOR = {"out": BLUE, "in": GREEN, "irq": RED, "tx": PURPLE, "rx": "#8a6100", "line": "#8a6100"}
KERNEL = (BLUE, ORANGE, GREEN, PURPLE)
SANS = "-apple-system, 'Segoe UI', Helvetica, Arial, 'DejaVu Sans', sans-serif"
MONO = "ui-monospace, Menlo, Consolas, 'DejaVu Sans Mono', monospace"
PORTS = {0x20: "PIC", 0x21: "PIC mask", 0xa0: "PIC 2", 0xa1: "PIC 2 mask", 0x40: "timer", 0x43: "timer mode", 0x3f8: "serial",
         0x3f9: "serial irq", 0x3fa: "serial id", 0x3fb: "line ctrl", 0x3fc: "modem ctrl", 0x3fd: "line status", 0x3fe: "modem status"}


class Picture:
    """Elements, and the scale of the steps."""

    def __init__(self, first, last):
        self.first, self.last = first, max(last, first + 1)
        self.out, self.y, self.barred = [], 0, False

    def x(self, step):
        return LEFT + (step - self.first) / (self.last - self.first) * PLOT

    def wide(self):
        """What a step takes."""
        return PLOT / (self.last - self.first)

    def inside(self, turn):
        """Where a turn begins and ends, as far as it is shown."""
        return [self.x(min(max(step, self.first), self.last)) for step in (turn.start, turn.end)]

    def crowded(self, turns):
        """There are more turns than can be told apart."""
        return sum(turn.end > self.first and turn.start < self.last for turn in turns) > PLOT / 8

    def text(self, x, y, said, *, size=12, color=INK, anchor="start", mono=False, bold=False, upright=False):
        more = f' transform="rotate(-90 {x:.1f} {y:.1f})"' if upright else ""
        more += f' font-family="{MONO}" xml:space="preserve"' if mono else ""
        more += ' font-weight="600"' if bold else ""
        more += f' text-anchor="{anchor}"' if anchor != "start" else ""
        self.out.append(f'<text x="{x:.1f}" y="{y:.1f}" font-size="{size}" fill="{color}"{more}>{escape(said)}</text>')

    def box(self, x, y, width, height, color, more=""):
        self.out.append(f'<rect x="{x:.1f}" y="{y:.1f}" width="{width:.1f}" height="{height:.1f}" fill="{color}"{more}/>')

    def path(self, d, color, width=1.0, more=""):
        self.out.append(f'<path d="{d}" stroke="{color}" stroke-width="{width}" fill="none"{more}/>')

    def boxes(self, spans, y, height, color, least=0.6):
        """From each beginning up to its end, as far as it is shown, in one shape; those that can't be told apart are one."""
        placed = []
        for start, end in spans:
            if end <= self.first or start >= self.last:
                continue
            x, to = (self.x(min(max(it, self.first), self.last)) for it in (start, end))
            if placed and x - placed[-1][1] < 0.05:
                placed[-1][1] = max(placed[-1][1], to)
            else:
                placed.append([x, max(to, x + least)])
        d = "".join(f"M{x:.1f} {y:g}h{to - x:.2f}v{height:g}H{x:.1f}z" for x, to in placed)
        if d:
            self.out.append(f'<path d="{d}" fill="{color}"/>')

    def marks(self, steps, color):
        """A stroke for each item; bars where they can't be told apart."""
        columns = Counter(int((self.x(step) - LEFT) / BAR) for step in steps)
        bottom = self.y + ROW - 5
        if len(steps) <= 2 * len(columns):
            places = sorted({round(self.x(step), 1) for step in steps})
            self.path("".join(f"M{x:g} {bottom}v-13" for x in places), color, 1.6)
            return
        self.barred, most = True, max(columns.values())
        bars = []
        for column, n in sorted(columns.items()):
            bars.append(f"M{LEFT + (column + 0.5) * BAR:g} {bottom}v-{max(2.0, 15 * (n / most) ** 0.5):.1f}")
        self.path("".join(bars), color, BAR - 0.5)

    def lane(self, label, steps, color, values=()):
        """A lane with its name, its items, their values where there is room, and their number."""
        self.path(f"M{LEFT} {self.y + ROW - 4.5}H{WIDTH - RIGHT}", GRID)
        self.text(LEFT - 10, self.y + ROW - 8, label, color=SOFT, anchor="end")
        self.marks(steps, color)
        self.values(list(zip(steps, values)))
        self.text(WIDTH - RIGHT + 8, self.y + ROW - 8, f"{len(steps):,}", size=11, color=SOFT)
        self.y += ROW

    def values(self, told):
        """Values to the right of their strokes, those of strokes that stand together one after the other. What was shown just
        before isn't shown again, but where steps are wide."""
        clusters = []
        for step, value in told:
            if clusters and self.x(step) - clusters[-1][1] < CLOSE:
                clusters[-1][1] = self.x(step)
                if clusters[-1][2][-1] != value:
                    clusters[-1][2].append(value)
            else:
                clusters.append([self.x(step), self.x(step), [value]])
        shown = None
        for (_, x, values), behind in zip(clusters, clusters[1:] + [[WIDTH - RIGHT + 5]]):
            said = " ".join(values)
            if said and (said != shown or self.wide() >= NARROWEST) and x + 4 + SMALL * len(said) <= behind[0] - 3:
                self.text(x + 4, self.y + ROW - 8, said, size=11, color=INK, mono=True)
                shown = said
