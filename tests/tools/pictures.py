"""Pictures of tools/draw, made and taken apart again, for its tests."""
import collections
import os
import re
import shutil
import subprocess
import xml.etree.ElementTree as tree

TOP = os.path.dirname(os.path.dirname(os.path.dirname(os.path.realpath(__file__))))
TOOL, EXAMPLES = f"{TOP}/tools/draw", f"{TOP}/examples"
PV, LOOK = (os.path.realpath(os.environ.get(it.upper()) or f"{TOP}/{it}") for it in ("pv", "look"))

LEFT, PLOT, WIDTH = 150, 746, 960
passed, failed = 0, 0


def expect(what, holds, seen=""):
    global passed, failed
    if holds:
        passed += 1
    else:
        failed += 1
        print(f"draw: {what}" + (f": {str(seen)[:300]}" if seen != "" else ""))


def run(*words):
    return subprocess.run(words, capture_output=True, text=True, check=False, stdin=subprocess.DEVNULL, encoding="utf-8")


def texts_of(picture):
    return [(float(it.get("x")), float(it.get("y")), it) for it in picture.iter() if it.tag.endswith("}text")]


def width_of(it):
    """What a text takes, at most: letters of a fixed width, or wide ones."""
    size = float(it.get("font-size"))
    return len(it.text) * size * (0.604 if it.get("font-family") else 0.60)


def place_of(x, y, it):
    """Left, right, upper and lower end of a text; an upright one goes up from its place."""
    width = width_of(it)
    if it.get("transform"):
        return x - 8, x + 1, y - width, y
    begin = {"start": x, "middle": x - width / 2, "end": x - width}[it.get("text-anchor", "start")]
    return begin, begin + width, y - 8, y + 1


def clash(one, other):
    return one[0] + 1 < other[1] and other[0] + 1 < one[1] and one[2] < other[3] and other[2] < one[3]


def drawn(what, *words):
    """The picture, with what holds of each: it is whole, stands alone, keeps inside its frame, and no text stands on another."""
    done = run(TOOL, *words)
    expect(f"{what}: drawn", done.returncode == 0 and not done.stderr, done.stderr)
    picture = tree.fromstring(done.stdout)
    expect(f"{what}: nothing from elsewhere", done.stdout.count("http") == 1 and "url(" not in done.stdout and "href" not in done.stdout)
    height, texts = float(picture.get("height")), texts_of(picture)
    expect(f"{what}: sizes of letters", {it.get("font-size") for _, _, it in texts} <= {"11", "12", "13", "16"})
    places = [(place_of(x, y, it), it.text) for x, y, it in texts]
    out = [text for at, text in places if at[0] < 0 or at[1] > WIDTH or at[2] < 0 or at[3] > height - 3]
    expect(f"{what}: inside its frame", not out, out)
    clashes = [(text, other) for i, (at, text) in enumerate(places) for place, other in places[:i] if clash(at, place)]
    expect(f"{what}: no text stands on another", not clashes, clashes)
    if shutil.which("rsvg-convert"):
        again = subprocess.run(["rsvg-convert"], input=done.stdout.encode(), capture_output=True, check=False)
        expect(f"{what}: rsvg-convert draws it", again.returncode == 0 and again.stdout.startswith(b"\x89PNG"), again.stderr)
    return picture


def lanes_in(picture):
    """Label and number of each lane, by the texts at the left and at the right of a row."""
    left = [(y, it.text) for x, y, it in texts_of(picture) if x == LEFT - 10 and it.get("text-anchor") == "end"]
    right = {y: it.text for x, y, it in texts_of(picture) if x == WIDTH - 64 + 8 and it.text != "items"}
    return [(label, int(right[y].replace(",", ""))) for y, label in left if y in right]


def counted(path, kernel=""):
    """What each lane has to have, from the lines of a trace."""
    found, lines = collections.Counter(), [it.split() for it in open(path).read().split("\n")]
    lines = [it[1:] for it in lines if it[:1] == [kernel]] if kernel else lines
    sent = {it[0] for it in lines if it[1:2] == ["tx"]}
    for it in lines:
        if it[1:2] == ["tx"]:
            found["sent"] += 1
        elif it[1:2] == ["irq"]:
            found[f"irq {it[2]}"] += 1
        elif it and it[0].isdigit() and not (it[1] == "out8" and it[2] == "03f8" and it[0] in sent):
            found[f"{re.sub('8|32', '', it[1])} {it[2]}"] += 1
    return found


def lanes_are(what, picture, wanted):
    seen = collections.Counter()
    for label, n in lanes_in(picture):
        if label != "turn":
            seen[label if label == "sent" or label.startswith("irq") else " ".join(label.split()[-2:])] += n
    expect(f"{what}: a lane for each port and vector, with as many items as the trace has", seen == wanted, (seen, wanted))


def strokes_at(picture, color):
    """The places of strokes of this colour, lane by lane."""
    return [[float(x) for x in re.findall(r"M([\d.]+) ", it.get("d"))] for it in picture.iter()
            if it.tag.endswith("}path") and it.get("stroke") == color and it.get("stroke-width") == "1.6"]


def pieces_in(picture):
    """The text of the console, in the order of the lines that lead down from it."""
    rows = sorted((y, x, it.text) for x, y, it in texts_of(picture) if it.get("font-family") and it.get("font-size") == "12")
    whole = []
    for y, x, text in rows:
        if whole and whole[-1][0] == y and set(text) == {"↵"} and abs(whole[-1][1] + 7.25 * len(whole[-1][2]) - x) < 1:
            whole[-1][2] += text
        else:
            whole.append([y, x, text])
    return sorted(text for _, _, text in whole)


def stored(room, name, text):
    with open(f"{room}/{name}", "w", encoding="utf-8") as file:
        file.write(text)
    return f"{room}/{name}"


def said_in(picture):
    return [it.text for _, _, it in texts_of(picture)]


def refused(what, status, said, *words):
    done = run(TOOL, *words)
    expect(what, done.returncode == status and done.stdout == "" and re.fullmatch(f"draw: .*{said}.*\n", done.stderr),
           (done.returncode, done.stderr))
