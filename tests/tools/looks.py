"""Tries tools/draw on lines of `look`, for tests/tools/draw: on a run that is written here, and on what look prints of examples/."""
import html
import re
import shutil
import subprocess

from pictures import EXAMPLES, LEFT, LOOK, PLOT, PV, TOOL, TOP, WIDTH, drawn, expect, lanes_in, refused, run, said_in, stored, texts_of

# A run after the grammar of docs/LOOK.md: level 0, a load of CR3, level 3, an interrupt in padding, an INT, two faults, waiting.
RUN = """0 0 10000000 movl $0x2000,%eax | eax 00002000
1 0 10000005 movl %eax,%cr3 | cr3 00002000
2 0 10000008 nop
3 0 10000009 nop
4 0 1000000a iret | esp 50000000  cs 001b  ss 0023
5 3 40000000 int $0x80 | esp c00fffec  cs 0008  ss 0010  eflags 00000002
6 0 10000020 iret | esp 50000000  cs 001b  ss 0023
7 3 40000002 cli | #GP 0000 -> 10000030  esp c00fffe8  cs 0008  ss 0010
8 0 10000030 outb %al,(%dx)
8 out8 03f8 3c
8 tx 3c
9 0 10000031 irq 20 | -> 10000040  esp c00fffdc
9 irq 20
10 0 10000040 movl 0x20000000,%ecx | #PF 0000 at 20000000 -> 10000050  esp c00fffcc  cr2 20000000
11 0 10000050 hlt | halted
12 0 10000051 halted
13 0 10000051 halted
end steps 14
"""
MAP = """10000000 00000060 text -                          first
10000000 00000020 T    _start                     first
10000020 00000010 t    on_call                    first
10000030 00000010 t    on_fault                   first
10000040 00000010 t    on_timer                   first
10000050 00000010 t    a_very_long_name_of_a_function first
11000000 00000004 D    word                       first
"""
LISTING = """    .globl _start
_start:
    movl $0x2000,%eax                    # 10000000 b8 00 20 00 00
    movl %eax,%cr3                       # 10000005 0f 22 d8 site WriteControl patched e9 f4 f4 f4 f4
                                         # 10000008 90 padding
                                         # 10000009 90 padding
    outb %al,(%dx)                       # 10000030 ee site PortOut patched e9 f4 f4 f4 f4
                                         # 10000031 90 padding
                                         # 10000032 90 padding
                                         # 10000033 90 padding
                                         # 10000034 90 padding
                                         # 10000060 eb fe end
"""
LEVEL_0, WAITS, FIRST, SECOND, RED, GREEN = "#8b949e", "#dfe3e8", "#0072b2", "#e69f00", "#d55e00", "#009e73"
FUNCTION, SITE, PADDING, TAKEN = "#5b7b99", "#f3cf8e", "#fbeccb", "#f8d5c4"


def stretches(picture, color, first, last, high=18):
    """The steps, with their fractions, from which and up to which a colour of a band stands."""
    found = []
    for it in picture.iter():
        if it.tag.endswith("}path") and it.get("fill") == color:
            for x, width, height in re.findall(r"M([\d.]+) [\d.]+h([\d.]+)v([\d.]+)", it.get("d")):
                if high is None or float(height) == high:
                    scale = (last - first) / PLOT
                    found.append((round(first + (float(x) - LEFT) * scale, 1), round(first + (float(x) + float(width) - LEFT) * scale, 1)))
    return sorted(found)


def upright_in(picture):
    return [it for _, _, it in texts_of(picture) if it.get("transform")]


def looked_at(room):
    """Who runs, functions, events, instructions; and the trace's own lanes as they are without them."""
    path, listing, names = stored(room, "run", RUN), stored(room, "list", LISTING), stored(room, "map", MAP)
    trace = stored(room, "plain", re.sub(r"(?m)^\d+ [03] .*\n", "", RUN))
    picture = drawn("lines of look", "--list", listing, "--names", names, path)
    expect("level 0", stretches(picture, LEVEL_0, 0, 14) == [(0, 5), (6, 7), (8, 12)], stretches(picture, LEVEL_0, 0, 14))
    expect("level 3", stretches(picture, FIRST, 0, 14) == [(5, 6), (7, 8)], stretches(picture, FIRST, 0, 14))
    expect("waiting", stretches(picture, WAITS, 0, 14) == [(12, 14)], stretches(picture, WAITS, 0, 14))
    expect("CR3 of level 0, since it has two", stretches(picture, FIRST, 0, 14, 6) == [(2, 14)]
           and stretches(picture, SECOND, 0, 14, 6) == [(0, 2)], (stretches(picture, FIRST, 0, 14, 6), stretches(picture, SECOND, 0, 14, 6)))
    said = said_in(picture)
    expect("the legend", {"level 0", "waits", "level 3, CR3 00002000", "CR3 00001000"} <= set(said), said)
    lanes = lanes_in(picture)
    functions = [("_start", 5), ("on_call", 1), ("on_fault", 2), ("on_timer", 1), ("a_very_long_name_o…", 1)]
    expect("a lane for each function, in the order in which they run", lanes[:5] == functions, lanes)
    expect("where they run", stretches(picture, FUNCTION, 0, 14, 12) == [(0, 5), (6, 7), (8, 10), (10, 11), (11, 12)],
           stretches(picture, FUNCTION, 0, 14, 12))
    events = [("in padding", 1), ("#GP", 1), ("#PF", 1), ("int 80", 1)]
    expect("events", lanes[5:9] == events, lanes)
    expect("values of events", {"10000031, padding of outb %al,(%dx)", "0000", "20000000"} <= set(said), said)
    expect("the trace's own lanes", lanes[9:] == lanes_in(drawn("without them", trace)), lanes)
    texts = [it.text for it in upright_in(picture)]
    wanted = [" ".join(re.match(r"\d+ [03] ([^|]*)", line)[1].split()) for line in RUN.split("\n") if re.match(r"\d+ [03] ", line)]
    expect("each instruction", texts == wanted, texts)
    colors = {it.text: it.get("fill") for it in upright_in(picture)}
    red = [it for it in wanted if colors[it] == RED]
    expect("what was raised or taken is red", red == [wanted[7], wanted[9], wanted[10]], red)
    for what, color, steps in (("sites", SITE, [(1, 2), (8, 9)]), ("padding", PADDING, [(2, 4)]), ("the interrupt", TAKEN, [(9, 10)])):
        expect(what, stretches(picture, color, 0, 14, None) == steps, stretches(picture, color, 0, 14, None))
    part = drawn("a part of it", "--from", "4", "--to", "9", path)
    expect("a part: who runs", stretches(part, FIRST, 4, 9) == [(5, 6), (7, 8)], stretches(part, FIRST, 4, 9))
    expect("a part: CR3 goes on from before it", "level 3, CR3 00002000" in said_in(part), said_in(part))
    stopped = stored(room, "stopped", "0 0 10000000 movb 0x0,%al | #PF 0000\nend steps 0 stop 4 DeliveryFailed\n")
    picture = drawn("a stop at once", stopped)
    expect("a stop at once: its exception", ("#PF", 1) in lanes_in(picture), lanes_in(picture))
    roots = "".join(f"{i} 0 10000000 movl %eax,%cr3 | cr3 {0x3000 + 0x1000 * i:08x}\n" for i in range(20)) + "end steps 20\n"
    said = said_in(drawn("many values of CR3", stored(room, "roots", roots)))
    expect("many values of CR3: six, and the others", sum(it.startswith("CR3 ") for it in said) == 6 and "14 other values of CR3" in said, said)
    many = "".join(f"{i} 0 {0x10000000 + 16 * (i % 20):08x} nop\n" for i in range(2000)) + "end steps 2000\n"
    names = stored(room, "many", "".join(f"{0x10000000 + 16 * i:08x} 00000010 t    f{i} one\n" for i in range(20)))
    lanes = lanes_in(drawn("many functions", "--names", names, stored(room, "long", many)))
    expect("many functions: ten, and the others", len(lanes) == 11 and lanes[-1] == ("others", 1000), lanes)


def hits(room):
    """Lines from some step on, and those of hits alone: CR3 isn't known before a load that is seen."""
    late = drawn("from step 4 on", stored(room, "late", "".join(RUN.splitlines(True)[4:])))
    expect("from step 4 on: it begins there", stretches(late, LEVEL_0, 4, 14)[0] == (4, 5), stretches(late, LEVEL_0, 4, 14))
    expect("from step 4 on: no CR3", "level 3, CR3 not known" in said_in(late), said_in(late))
    alone = drawn("hits alone", stored(room, "hits", "1 0 10000005 movl %eax,%cr3 | cr3 00002000\n7 3 40000002 cli\nend steps 14\n"))
    expect("hits alone: from the beginning", stretches(alone, LEVEL_0, 0, 14) == [(1, 2)], stretches(alone, LEVEL_0, 0, 14))
    expect("hits alone: no CR3 after a gap", "level 3, CR3 not known" in said_in(alone), said_in(alone))


def walk(step, cached, word="00102003"):
    found = f"frame {int(word, 16) >> 12:08x} write" if int(word, 16) & 1 else "none, not present"
    return (f"step    {step}\naddress 40005000\ncr3     00001000\npde     at 00001400 is 00101003 present write\n"
            f"pte     at 00101014 is {word} present write\nwalk    {found}\ncached  {cached}\n")


def gone_stale(room):
    old, new = "frame 00000102 write", "frame 00000103 write"
    text = walk(0, "none") + walk(3, old) + walk(4, old) + walk(6, f"{old} stale", "00103003") + walk(9, "none") + walk(10, f"{new}")
    walks, trace = stored(room, "walks", text), stored(room, "plain", "2 out8 0080 01\nend steps 12\n")
    picture = drawn("a stale page", "--walks", walks, "--to", "12", trace)
    expect("cached", stretches(picture, GREEN, 0, 12) == [(3, 6), (10, 11)], stretches(picture, GREEN, 0, 12))
    expect("stale", stretches(picture, RED, 0, 12) == [(6, 9)], stretches(picture, RED, 0, 12))
    said = said_in(picture)
    expect("which page, which frames", {"page 40005000", "cached: frame 102", "stale: 102, walk 103"} <= set(said), said)


def scrolled(page, room, step):
    """The step at which the list is, after a click at this step of the picture."""
    click = (f"<script>{{ const box = svg.getBoundingClientRect(), scale = box.width / {WIDTH};"
             f"svg.dispatchEvent(new MouseEvent('click', {{ bubbles: true, clientY: box.top + 40, clientX: box.left + scale * "
             f"(LEFT + PLOT * ({step} + 0.5 - FIRST) / (LAST - FIRST)) }})); }} requestAnimationFrame(() => requestAnimationFrame(() =>"
             f"document.body.dataset.there = `${{list.dataset.step}} ${{cursor.getAttribute('d')}}`));</script></body>")
    path = stored(room, "clicked.html", page.replace("</body>", click))
    words = ["chromium", "--headless", "--no-sandbox", "--disable-gpu", f"--user-data-dir={room}/chromium", "--virtual-time-budget=2000"]
    try:
        done = subprocess.run([*words, "--dump-dom", f"file://{path}"], capture_output=True, text=True, check=False, timeout=120)
    except subprocess.TimeoutExpired:
        return None
    found = re.search(r'data-there="(\d+) M([\d.]+) ', done.stdout)
    return found and (int(found[1]), round(float(found[2]), 1))


def one_page(room):
    """The page: the picture, and each line once; nothing from elsewhere; what stands in a line or a title stays text."""
    path = stored(room, "run", RUN)
    done = run(TOOL, "--html", "--title", "</script><b> & \"more\"", path)
    expect("a page", done.returncode == 0 and done.stdout.startswith("<!DOCTYPE html>"), done.stderr)
    lines = re.search(r'<pre id="lines">(.*?)</pre>', done.stdout, re.S)[1]
    expect("a page: its lines", html.unescape(lines) == RUN.rstrip("\n"), lines[:200])
    expect("a page: nothing from elsewhere", done.stdout.count("http") == 1 and not re.search(r"\b(src|href|import|fetch)\b|url\(", done.stdout))
    expect("a page: one script, and no other mark", done.stdout.count("<script") == done.stdout.count("</script") == 1 and "<b>" not in done.stdout)
    picture = done.stdout[done.stdout.index("<svg"):done.stdout.index("</svg>") + 7]
    expect("a page: the picture", picture == run(TOOL, "--title", "</script><b> & \"more\"", path).stdout)
    part = run(TOOL, "--html", "--from", "4", "--to", "6", path).stdout
    lines = html.unescape(re.search(r'<pre id="lines">(.*?)</pre>', part, re.S)[1]).split("\n")
    expect("a page of a part", [it.split()[0] for it in lines] == ["4", "5", "6", "end"], lines)
    long_run = "".join(f"{i} 0 10000000 jmp 0x10000000\n" for i in range(5000)) + "end steps 5000\n"
    page = run(TOOL, "--html", stored(room, "long", long_run)).stdout
    if shutil.which("chromium"):
        seen, wanted = scrolled(page, room, 4321), round(LEFT + PLOT * 4321 / 5000, 1)
        # a click has whole pixels, of seven steps each
        expect("a page: a click scrolls there, and draws a line", seen and abs(seen[0] - 4321) <= 7 and abs(seen[1] - wanted) <= 1, (seen, wanted))


def wrong_looks(room):
    path, plain = stored(room, "run", RUN), f"{EXAMPLES}/timer.trace"
    listing, names = stored(room, "list", LISTING), stored(room, "map", MAP)
    refused("names with a plain trace", 2, "go with a trace that look steps printed", "--names", names, plain)
    refused("a listing with a plain trace", 2, "go with a trace that look steps printed", "--list", listing, plain)
    refused("no map", 2, "line 1 is no line of a map", "--names", path, path)
    refused("no listing", 2, "it is no text of look list", "--list", path, path)
    refused("no walks", 2, "it has no answer of look walk", "--walks", path, path)
    refused("half a walk", 2, "it is no answer of `look walk`", "--walks", stored(room, "half", "cached  none\n"), path)
    refused("a page of two", 2, "usage: tools/draw", "--html", path, path)
    refused("a page of a shared run", 2, "one kernel alone", "--html", stored(room, "two", "0 end steps 4\n1 end steps 0\n"))
    refused("lines of look that fall", 2, "steps of look fall", stored(room, "falls", "1 0 10000000 nop\n0 0 10000001 nop\nend steps 2\n"))
    refused("lines of look past the end", 2, "or pass the end", stored(room, "past", "2 0 10000000 nop\nend steps 2\n"))


def levels_of(name):
    """The stretches of level 3, from the model that was written apart."""
    found = []
    for words in (line.split() for line in open(f"{TOP}/tests/steps/{name}.txt")):
        if words[1] == "3":
            step = int(words[0])
            if found and found[-1][1] == step:
                found[-1] = (found[-1][0], step + 1)
            else:
                found.append((step, step + 1))
    return found


def runs_of_look(room):
    """What look prints of kernels of examples/."""
    for name, *more in (("timer", "setup"), ("rings", "setup"), ("echo", "setup"), ("pages",), ("spaces",), ("large",)):
        objects = []
        for source in (name, *more):
            objects.append(f"{room}/{source}.o")
            run(PV, "burn", f"{EXAMPLES}/{source}.s", objects[-1])
        run(PV, "link", f"{room}/{name}.img", *objects)
        script = f"{EXAMPLES}/{name if name == 'echo' else 'none'}.script"
        end = re.search(r"end steps (\d+)(.*)", open(f"{EXAMPLES}/{name}.trace").read())
        bound = str(int(end[1]) + len(end[2]))
        done = run(LOOK, "steps", f"{room}/{name}.img", script, "2048", "0", bound)
        expect(f"{name}: look steps", done.returncode in (0, 4) and not done.stderr, done.stderr)
        path, listing = stored(room, f"{name}.steps", done.stdout), stored(room, f"{name}.list", run(LOOK, "list", f"{room}/{name}.img").stdout)
        picture = drawn(f"{name} by look", "--list", listing, "--names", stored(room, f"{name}.map", run(f"{TOP}/tools/symbols", "--map",
                        f"{room}/{name}.img", *objects).stdout), "--to", end[1], path)
        seen = dict(lanes_in(picture))
        trace = dict(lanes_in(drawn(f"{name} alone", "--to", end[1], f"{EXAMPLES}/{name}.trace")))
        expect(f"{name} by look: the trace's lanes", trace.items() <= seen.items(), (trace, seen))
        wanted = levels_of(name)
        shown = stretches(picture, FIRST, 0, int(end[1]))
        expect(f"{name} by look: level 3 as the model has it", len(wanted) == len(shown) and all(
            abs(a - c) < 0.2 and abs(b - d) < 0.2 for (a, b), (c, d) in zip(wanted, shown)), (wanted, shown))
        if name == "timer":
            expect("timer: the interrupt came in padding", seen.get("in padding") == 1 and "10000034, padding of pushfl" in said_in(picture), seen)
    text = "".join(run(LOOK, "walk", f"{room}/pages.img", f"{EXAMPLES}/none.script", "2048", str(n), "40005000").stdout for n in range(25))
    picture = drawn("pages by look", "--walks", stored(room, "walks", text), "--to", "25", f"{room}/pages.steps")
    expect("pages: stale from the write of the PTE to INVLPG", stretches(picture, RED, 0, 25) == [(13, 19)], stretches(picture, RED, 0, 25))
    expect("pages: cached before and after", stretches(picture, GREEN, 0, 25) == [(8, 13), (20, 25)], stretches(picture, GREEN, 0, 25))


def by_hand(room):
    looked_at(room)
    hits(room)
    gone_stale(room)
    one_page(room)
    wrong_looks(room)
