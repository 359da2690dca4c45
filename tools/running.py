"""What `look` says of a run, as lanes of a picture: who runs, which function, what was raised, which page is stale, each instruction.

For tools/draw. It isn't proved; it rests on docs/LOOK.md, by looked.py, and for CR3 at boot on docs/FORMATS.md (The machine at boot).
"""
import re
from bisect import bisect_right
from collections import Counter, namedtuple

from looked import raised_by, root_after
from picture import BLUE, GREEN, GRID, INK, LEFT, NARROWEST, ORANGE, PAPER, PURPLE, RED, RIGHT, ROW, SMALL, SOFT, WIDTH
from traces import Bad, lines_of

Beside = namedtuple("Beside", "names paddings sites walks")    # what is given besides the traces
Who = namedtuple("Who", "level root waits")
Span = namedtuple("Span", "start end said")

BOOT_ROOT = 0x1000
LEVEL_0, WAITS = "#8b949e", "#dfe3e8"
ROOTS, OTHER_ROOT = (BLUE, ORANGE, GREEN, PURPLE, "#8a6100", "#56b4e9"), "#3d4650"
FUNCTION, SITE, PADDING, TAKEN = "#5b7b99", "#f3cf8e", "#fbeccb", "#f8d5c4"
FUNCTIONS = 10               # that have a lane of their own
LONGEST = 38                 # letters of an instruction with its address


def names_in(path):
    """The functions of a map of tools/symbols: address, size, name."""
    found = []
    for number, line in enumerate(lines_of(path), 1):
        parts = re.fullmatch(r"([0-9a-f]{8}) ([0-9a-f]{8}) (\w+) +(\S+) +\S.*", line)
        if line and not parts:
            raise Bad(f"{path}: line {number} is no line of a map of tools/symbols: {line[:60]}")
        if line and parts[3] in "tT":
            found.append((int(parts[1], 16), int(parts[2], 16), parts[4]))
    return sorted(found)


def joined(spans):
    """Stretches that follow one another and of which the same is said are one."""
    found = []
    for start, end, said in spans:
        if found and found[-1][1] == start and found[-1][2] == said:
            found[-1][1] = end
        else:
            found.append([start, end, said])
    return [Span(*it) for it in found]


def spans_of(told):
    return joined((step, step + 1, said) for step, said in told)


def shown_of(picture, run):
    return [it for it in run.steps if picture.first <= it.number <= picture.last]


def who_by(steps):
    """Who runs in each step. CR3 is known from boot on, or from its first load in steps that follow one another."""
    root, next_one = BOOT_ROOT if steps[0].number == 0 else None, steps[0].number
    for step in steps:
        root = root if step.number == next_one else None
        yield step.number, Who(step.level, root, step.does == "halted")
        root, next_one = root_after(step, root), step.number + 1


def legend(picture, said):
    """Colours and what they stand for, in as many rows as they need."""
    x = LEFT
    for color, label in said:
        if x + 30 + SMALL * len(label) > WIDTH - RIGHT and x > LEFT:
            x, picture.y = LEFT, picture.y + 16
        picture.box(x, picture.y + 2, 10, 10, color, ' rx="2"')
        picture.text(x + 15, picture.y + 11, label, size=11, color=SOFT)
        x += 34 + SMALL * len(label)
    picture.y += 22


def roots_of(spans):
    """The values of CR3, those of level 3 first: which of each level there are, and the colour of each."""
    at_3 = list(dict.fromkeys(it.said.root for it in spans if it.said.level == 3))
    at_0 = list(dict.fromkeys(it.said.root for it in spans if it.said.level == 0))
    ordered = at_3 + [it for it in at_0 if it not in at_3]
    return at_3, at_0, {root: ROOTS[i] if i < len(ROOTS) else OTHER_ROOT for i, root in enumerate(ordered)}


def of_roots(color, roots, before):
    """What colours of roots stand for."""
    said = [(color[it], before + ("CR3 not known" if it is None else f"CR3 {it:08x}")) for it in roots if color[it] != OTHER_ROOT]
    others = len(roots) - len(said)
    return said + [(OTHER_ROOT, f"{before}{others:,} other values of CR3")] * bool(others)


def band(picture, spans, color):
    """The levels, and their names where there is room."""
    picture.text(LEFT - 10, picture.y + 14, "runs", color=SOFT, anchor="end")
    colored = {}
    for it in spans:
        fill = WAITS if it.said.waits else LEVEL_0 if it.said.level == 0 else color[it.said.root]
        colored.setdefault(fill, []).append((it.start, it.end))
    for fill, stretches in colored.items():
        picture.boxes(stretches, picture.y + 1, 18, fill)
    for it in spans:
        x, end = picture.inside(it)
        said = "waits" if it.said.waits else f"level {it.said.level}"
        if end - x > 7 * len(said) + 8:
            dark = it.said.waits or it.said.level == 3 and color[it.said.root] == ORANGE
            picture.text((x + end) / 2, picture.y + 14, said, size=11, color=INK if dark else PAPER, anchor="middle")
    picture.y += 21


def who_runs(picture, run):
    """A band of the levels, level 3 in the colour of CR3; and CR3 below it where level 0 has several."""
    spans = [it for it in spans_of(who_by(run.steps)) if it.end > picture.first and it.start < picture.last]
    at_3, at_0, color = roots_of(spans)
    band(picture, spans, color)
    said = [(LEVEL_0, "level 0")] * any(it.said.level == 0 and not it.said.waits for it in spans)
    said += [(WAITS, "waits")] * any(it.said.waits for it in spans)
    said += of_roots(color, at_3, "level 3, ")
    if len(at_0) > 1:
        for fill in dict.fromkeys(color.values()):
            picture.boxes([(it.start, it.end) for it in spans if color[it.said.root] == fill], picture.y, 6, fill)
        picture.text(LEFT - 10, picture.y + 8, "CR3", size=11, color=SOFT, anchor="end")
        picture.y += 10
        said += of_roots(color, [it for it in color if it not in at_3], "")
    picture.y += 3
    if len(said) > 1 or at_3:
        legend(picture, said)


def named_by(names, shown):
    """Which function each step is in, by its address; a step in none isn't given."""
    begins, known = [it[0] for it in names], {}
    for step in shown:
        if step.eip not in known:
            i = bisect_right(begins, step.eip) - 1
            known[step.eip] = names[i][2] if i >= 0 and step.eip < names[i][0] + names[i][1] else None
        if known[step.eip] and step.does != "halted":
            yield step.number, known[step.eip]


def functions(picture, run, names):
    """A lane for each function that runs, the busiest alone where they are many, in the order in which they first run."""
    told = list(named_by(names, shown_of(picture, run)))
    count = Counter(name for _, name in told)
    own = [name for name, _ in count.most_common(FUNCTIONS)] if len(count) > FUNCTIONS + 1 else list(count)
    lanes = [it for it in dict.fromkeys(name for _, name in told) if it in own]
    for label in lanes + ["others"] * (len(count) > len(own)):
        mine = [(at, label) for at, name in told if (name == label if label in count else name not in own)]
        shown = label if len(label) <= 19 else label[:18] + "…"
        picture.path(f"M{LEFT} {picture.y + ROW - 4.5}H{WIDTH - RIGHT}", GRID)
        picture.text(LEFT - 10, picture.y + ROW - 8, shown, color=SOFT, anchor="end")
        picture.boxes([(it.start, it.end) for it in spans_of(mine)], picture.y + 5, ROW - 10, FUNCTION)
        picture.text(WIDTH - RIGHT + 8, picture.y + ROW - 8, f"{len(mine):,}", size=11, color=SOFT)
        picture.y += ROW
    picture.y += 4


def events(picture, run, beside):
    """A lane for each exception that was raised, for each INT, and for interrupts that came in a site's padding."""
    raised, called, padded = {}, {}, []
    for step in shown_of(picture, run):
        what = raised_by(step)
        if what:
            raised.setdefault(what.name, []).append((step.number, what.address or what.code or f"{step.eip:08x}"))
        elif step.does.startswith("int"):
            called.setdefault(step.does.replace("$0x", ""), []).append((step.number, ""))
        elif step.does.startswith("irq ") and step.eip in beside.paddings:
            padded.append((step.number, f"{step.eip:08x}, padding of {beside.paddings[step.eip].instruction}"))
    lanes = [("in padding", padded, RED)] * bool(padded)
    lanes += [(f"#{name}", told, RED) for name, told in sorted(raised.items())]
    lanes += [(name, told, PURPLE) for name, told in sorted(called.items())]
    for label, told, color in lanes:
        picture.lane(label, [it[0] for it in told], color, [it[1] for it in told])


def frame_of(text):
    """The frame of a translation, or why there is none."""
    found = re.match(r"frame 0*([0-9a-f]+)", text)
    return found[1] if found else text.removeprefix("none, ")


def texts_of(walked):
    """What is said of a page, at length and shorter; nothing where nothing is cached."""
    if not walked.cached:
        return ()
    kept, found = frame_of(walked.cached), frame_of(walked.walk)
    if walked.stale:
        return f"stale: frame {kept}, a walk finds {found}", f"stale: {kept}, walk {found}", "stale"
    return f"cached: frame {kept}", "cached"


def pages(picture, walks):
    """A band for each page that `look walk` was asked for: what is cached, and whether it is stale, up to the next answer."""
    for page in sorted({it.page for it in walks}):
        told = sorted({it.step: it for it in walks if it.page == page}.values())
        ends = [it.step for it in told[1:]] + [told[-1].step + 1]
        spans = joined(Span(it.step, end, texts_of(it)) for it, end in zip(told, ends))
        picture.text(LEFT - 10, picture.y + 14, f"page {page * 4096:08x}", color=SOFT, anchor="end")
        for it in spans:
            x, end = picture.inside(it)
            if it.said and end > x:
                picture.boxes([(it.start, it.end)], picture.y + 1, 18, RED if it.said[-1] == "stale" else GREEN)
                said = next((text for text in it.said if SMALL * len(text) + 4 < end - x), "")
                if said:
                    picture.text((x + end) / 2, picture.y + 14, said, size=11, color=PAPER, anchor="middle")
        picture.y += 22
    if walks:
        legend(picture, [(GREEN, "cached, as a walk finds it"), (RED, "stale: cached, and a walk finds something else")])


def instructions(picture, run, beside):
    """The text of each step, upright, where steps are wide enough; sites and their padding in colour."""
    wide, shown = picture.wide(), [it for it in shown_of(picture, run) if it.number < picture.last]
    if wide < NARROWEST or not shown:
        return
    texts = [(it, f"{it.eip:08x} {it.does}") for it in shown]
    texts = [(it, said if len(said) <= LONGEST else said[:LONGEST - 1] + "…") for it, said in texts]
    high = SMALL * max(len(said) for _, said in texts) + 10
    filled = {TAKEN: [], PADDING: [], SITE: []}
    for it in shown:
        fill = (TAKEN if it.does.startswith("irq ") else PADDING if it.eip in beside.paddings else SITE if it.eip in beside.sites else None)
        if fill and it.does != "halted":
            filled[fill].append((it.number, it.number + 1))
    for fill, spans in filled.items():
        picture.boxes(spans, picture.y + 2, high, fill)
    picture.text(LEFT - 10, picture.y + high - 4, "instruction", color=SOFT, anchor="end")
    for it, said in texts:
        color = RED if it.does.startswith("irq ") or raised_by(it) else INK
        picture.text(picture.x(it.number) + wide / 2 + 4, picture.y + high - 3, said, size=11, color=color, mono=True, upright=True)
    picture.y += high + 4
    said = [(SITE, "a site's instruction"), (PADDING, "its padding")] if beside.sites else []
    legend(picture, said + [(TAKEN, "an interrupt is taken")] * bool(filled[TAKEN]))


def running(picture, run, beside):
    """The lanes that stand above a run's console."""
    if run.steps:
        who_runs(picture, run)
        if beside.names:
            functions(picture, run, beside.names)
        events(picture, run, beside)
