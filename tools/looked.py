"""What `look` prints of a run, read back: lines of `steps`, machines of `state`, bytes of `memory`.

Not proved. It rests on docs/LOOK.md alone, and is the one place of tools/ that knows how these texts are written.
"""
import re
from collections import namedtuple

Step = namedtuple("Step", "number level eip does entries")
Translation = namedtuple("Translation", "frame user write dirty")

STEP = re.compile(rb"^(\d+) ([03]) ([0-9a-f]{8}) (.*)$", re.M)
STORED = re.compile(r"\[([0-9a-f]{8})\] ([0-9a-f]+)$")
NEXT = re.compile(r"([0-9a-f]{8})((?: [0-9a-f]{2}(?= ))+) (.*)")
CACHED = re.compile(r"page ([0-9a-f]{8}) frame ([0-9a-f]{8})( user)?( write)?( dirty)?")
DUMPED = re.compile(r"[0-9a-f]{8} (.{49})  \|")
END = re.compile(r"end steps (\d+)(?: stop (\d+ \w+))?")
DEVICES = ("pic1", "pic2", "pit", "uart")
PAGE = 4096


class Unread(Exception):
    """A text that isn't what docs/LOOK.md says."""


def step_of(found):
    """A step, of what STEP has found."""
    does, _, entries = found[4].decode("latin-1").partition(" | ")
    return Step(int(found[1]), int(found[2]), int(found[3], 16), does, entries.split("  ") if entries else [])


def begins_instruction(step):
    """It takes no interrupt and doesn't wait, so that EIP's instruction is carried out."""
    return step.does != "halted" and not step.does.startswith("irq ")


def stored_by(step):
    """The address and the bytes that its instruction wrote, or None."""
    found = STORED.match(step.entries[-1]) if step.entries else None
    return found and (int(found[1], 16), bytes.fromhex(found[2]))


class Delivery(namedtuple("Delivery", "code saves_next")):
    """An event that the step delivered: its error code or None, and whether the EIP that is saved is the next instruction's."""


def delivery_of(step):
    """The event that a step delivered, or None: an interrupt, an exception, or INT."""
    first = step.entries[0] if step.entries else ""
    raised = re.match(r"#\w+(?: ([0-9a-f]{4}))?(?: at [0-9a-f]{8})? -> ", first)
    if raised:
        return Delivery(raised[1] and int(raised[1], 16), False)
    if step.does.startswith("irq "):
        return Delivery(None, False)
    if re.match(r"int(3| |$)", step.does) and not first.startswith("#"):
        return Delivery(None, True)
    return None


Raised = namedtuple("Raised", "name code address")
RAISED = re.compile(r"#(\w+)(?: ([0-9a-f]{4}))?(?: at ([0-9a-f]{8}))?(?: -> |$)")


def raised_by(step):
    """The exception that its instruction raised, as it is printed, or None."""
    found = RAISED.match(step.entries[0]) if step.entries else None
    return found and Raised(*found.groups())


def root_after(step, root):
    """CR3 after the step, of CR3 before it."""
    return next((int(it[4:], 16) for it in step.entries if it.startswith("cr3 ")), root)


class State:
    """A machine before a step. `number` has each number by its name, `cached` the translations by page, `devices` their lines."""

    def __init__(self, lines):
        self.number, self.cached, self.devices, self.next, self.length, self.hidden = {}, {}, [], "", 0, {}
        for line in lines:
            name, rest = line[:8].rstrip(), line[8:]
            if name == "tlb":
                found = CACHED.fullmatch(rest)
                self.cached[int(found[1], 16)] = Translation(int(found[2], 16), *(bool(it) for it in found.groups()[2:]))
            elif name in DEVICES:
                self.devices.append(line)
            elif name == "next":
                self.next = line
                found = NEXT.match(rest)
                self.length = len(found[2]) // 3 if found else 0
            else:
                self.register(name, rest)
        if not {"step", "eip", "esp", "cr3", "gdtr", "tr"} <= self.number.keys():
            raise Unread("it is no machine of `look state`")

    def register(self, name, rest):
        words = rest.split()
        if name in ("step", "level"):
            self.number[name] = int(words[0])
        elif name in ("halted", "held"):
            self.number[name] = int(words[0] == "yes")
        else:
            self.number[name] = int(words[0], 16)
            self.hidden[name] = words[1:]
            for what, value in zip(words[1:], words[2:]):
                if what in ("base", "limit"):
                    self.number[f"{name}_{what}"] = int(value, 16)

    @property
    def step(self):
        return self.number["step"]

    @property
    def eip(self):
        return self.number["eip"]


def states_of(text):
    """The machines of `look state`, by their steps, and the run's last line or None where it didn't stop before."""
    found, lines, end = {}, [], None
    for line in [*text.split("\n"), "step    "]:
        if line.startswith("end steps "):
            end = line
        elif line.startswith("step    "):
            if lines:
                state = State(lines)
                found[state.step] = state
            lines = [line]
        elif line:
            lines.append(line)
    return found, end


def bytes_of(text):
    """The bytes of `look memory`, None for each that nothing maps."""
    found = []
    for line in text.split("\n"):
        dumped = DUMPED.match(line)
        if dumped:
            found += [None if it == "--" else int(it, 16) for it in dumped[1].split()]
    return found


LISTED = re.compile(r"(.*?) *# ([0-9a-f]{8})((?: [0-9a-f]{2})+)(.*)")
Walked = namedtuple("Walked", "step page walk cached stale")
Padding = namedtuple("Padding", "site instruction")


def paddings_of(listing):
    """Of a text of `look list`: each address of a site's padding, with the site's address and its instruction; and the sites."""
    paddings, sites, site = {}, {}, None
    for line in listing.split("\n"):
        found = LISTED.fullmatch(line)
        if not found:
            continue
        address = int(found[2], 16)
        if " site " in found[4]:
            site = Padding(address, found[1].strip())
            sites[address] = site
        elif found[4] == " padding" and site:
            paddings[address] = site
    return paddings, sites


def walks_of(text):
    """The answers of `look walk`, one after the other: the step, the page, what a walk finds, what is cached or None, and whether
    that is stale."""
    found, said = [], {}
    for line in text.split("\n"):
        name, rest = line[:8].rstrip(), line[8:]
        said[name] = rest
        if name == "cached":
            if not {"step", "address", "walk"} <= said.keys():
                raise Unread("it is no answer of `look walk`")
            stale = rest.endswith(" stale")
            cached = None if rest == "none" else rest.removesuffix(" stale")
            found.append(Walked(int(said["step"]), int(said["address"], 16) // PAGE, said["walk"], cached, stale))
            said = {}
    return found
