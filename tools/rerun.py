"""A run that is made again and again: the machine before any step, where an address is met, where bytes change; forwards and backwards.

Not proved. A run of the bare machine is the same each time, so each question is a run from boot, by `look steps`, `look state`,
`look memory`, `look walk`, `pv run --bare` and `pv save --bare`. Nothing goes on from a checkpoint: that would drop what is cached.
"""
import bisect
import concurrent.futures
import contextlib
import os
import select
import shutil
import subprocess
import tempfile

from looked import END, PAGE, STEP, begins_instruction, bytes_of, states_of, step_of, stored_by
from remote import Interrupted, Refused
from window import HEADER, Window

AT_ONCE = 64            # addresses of one `steps .. at`, and machines of one `state`
BEHIND = 20             # of a window's machines so many stand before the one that was asked for
NEAR = 12               # where a window has no more machines than this on one side, the next one is made
KEPT = 6                # windows
DONE = (0, 4)           # the statuses of a run that came to its bound, or to a stop


class Trace:
    """The whole run's items, its last step, and its stop or None."""

    def __init__(self, text):
        lines = text.split("\n")
        end = END.fullmatch(lines[-2])
        self.items, self.end, self.last, self.stop = lines[:-2], lines[-2], int(end[1]), end[2]
        self.steps = [int(it[:it.index(" ")]) for it in self.items]

    def place(self, step):
        return bisect.bisect_left(self.steps, step)

    def between(self, first, last):
        """The items of the steps from `first` to before `last`."""
        return self.items[self.place(first):self.place(last)]


class Rerun:
    """`programs` are look and pv; `ears` is what is asked, with a file to wait on, whether to go on waiting."""

    def __init__(self, programs, words, bound, ears):
        self.look, self.pv = programs
        self.words, self.bound, self.ears = [str(it) for it in words], bound, ears
        self.room, self.running = tempfile.mkdtemp(prefix="gdb-"), set()
        self.pool = concurrent.futures.ThreadPoolExecutor(8)
        self.windows, self.coming_window, self.pages, self.known_trace = [], (-AT_ONCE, None), {}, None
        self.coming = self.pool.submit(self.said, self.pv, "run", "--bare", *self.words, self.bound)

    def close(self):
        for it in list(self.running):
            it.kill()
        self.pool.shutdown(cancel_futures=True)
        shutil.rmtree(self.room, ignore_errors=True)

    # ---- programs

    @contextlib.contextmanager
    def begun(self, words):
        """A program that runs, and is ended where nobody wants more of it."""
        streams = {"stdin": subprocess.DEVNULL, "stdout": subprocess.PIPE, "stderr": subprocess.PIPE}
        with subprocess.Popen([str(it) for it in words], **streams) as running:
            self.running.add(running)
            try:
                yield running
            finally:
                running.kill()
                self.running.discard(running)

    def said(self, *words):
        with self.begun(words) as running:
            out, error = running.communicate()
        self.judge(words, running, out + error)
        return out.decode("latin-1")

    @staticmethod
    def judge(words, running, said=b""):
        if running.returncode not in DONE:
            said = said.decode("latin-1").strip()
            raise Refused(f"{' '.join(str(it) for it in words)}: status {running.returncode}: {said}")

    def looked(self, form, *words):
        return self.said(self.look, form, *self.words, *words)

    @property
    def trace(self):
        if self.known_trace is None:
            self.known_trace = Trace(self.coming.result())
        return self.known_trace

    def steps(self, first, last, *only):
        """The printed steps from `first` to before `last`, in their order, as the run comes to them. Whoever has seen enough ends it."""
        if first >= last:
            return
        words = [self.look, "steps", *self.words, first, last, *only]
        with self.begun(words) as running:
            for part in self.parts_of(running.stdout):
                for found in STEP.finditer(part):
                    yield step_of(found)
            running.wait()
        self.judge(words, running)

    def parts_of(self, stream):
        """What a program prints, in parts that end with whole lines."""
        held = b""
        while True:
            ready, _, _ = select.select([stream, self.ears.file], [], [])
            if self.ears.file in ready and self.ears.is_interrupted():
                raise Interrupted
            if stream not in ready:
                continue
            part = os.read(stream.fileno(), 1 << 20)
            if not part:
                return
            whole, newline, rest = (held + part).rpartition(b"\n")
            held = rest
            yield whole + newline

    # ---- the machine before a step

    def window(self, n):
        for it in self.windows:
            if n in it:
                return it
        first, coming = self.coming_window
        made = coming.result() if first <= n < first + AT_ONCE else None
        if not made or n not in made:
            made = self.make_window(max(n - BEHIND, 0), n)
        self.windows = [made, *self.windows[:KEPT - 1]]
        return made

    def go_on_from(self, n):
        """Begins to make the window that somebody who goes step by step will want, beside what he does."""
        here = self.window(n)
        if here.last - n < NEAR and here.last < self.trace.last:
            first = here.last - 1
        elif n - here.first < NEAR and here.first > 0:
            first = max(0, here.first + 2 - AT_ONCE)
        else:
            return
        if not any(first in it and first + NEAR in it for it in self.windows):
            self.begin_window(first)

    def begin_window(self, first):
        if first != self.coming_window[0]:
            self.coming_window = first, self.pool.submit(self.make_window, first, first)

    def make_window(self, first, wanted):
        last = min(first + AT_ONCE - 1, self.bound)
        if self.known_trace is not None:
            last = min(last, self.known_trace.last)
        coming = self.pool.submit(self.looked, "state", *range(first, last + 1))
        steps = self.pool.submit(lambda: list(map(step_of, STEP.finditer(self.looked("steps", first, last).encode("latin-1")))))
        begun, ended = self.pool.submit(self.saved, first), self.pool.submit(self.saved, last)
        states, end = states_of(coming.result())
        if wanted not in states:
            raise Refused(f"there is no step {wanted}: {end}")
        memory_at_end = ended.result() if max(states) == last else self.saved(max(states))
        return Window(states, {it.number: it for it in steps.result()}, begun.result(), memory_at_end)

    def saved(self, n):
        """All of memory before step n, or nothing where the run doesn't come to it."""
        with tempfile.NamedTemporaryFile(dir=self.room) as file:
            self.said(self.pv, "save", "--bare", *self.words, n, file.name)
            with open(file.name, "rb") as saved:
                return saved.read()[HEADER:]

    def state(self, n):
        return self.window(n).state(n)

    def is_at(self, n, addresses):
        """Whether step n begins one of these instructions. The step before which the run ends begins one too."""
        window = self.window(n)
        step = window.steps.get(n)
        return window.state(n).eip in addresses and (step is None or begins_instruction(step))

    def memory(self, n, address, size):
        """The bytes at a linear address, up to the first that nothing maps."""
        window = self.window(n)
        if window.is_exact:
            return window.bytes(n, address, size)
        found = bytearray()
        while len(found) < size:
            at = address + len(found) & 0xffffffff
            for byte in self.page(n, at // PAGE)[at % PAGE:at % PAGE + size - len(found)]:
                if byte is None:
                    return bytes(found)
                found.append(byte)
        return bytes(found)

    def page(self, n, page):
        if (n, page) not in self.pages:
            self.pages[n, page] = bytes_of(self.looked("memory", n, f"{page * PAGE:x}", PAGE))
        return self.pages[n, page]

    def value(self, n, address, size):
        """The same of a single step that nothing else is asked of, so without a window of its own."""
        if any(n in it for it in self.windows):
            return self.memory(n, address, size)
        found = bytes_of(self.looked("memory", n, f"{address:x}", size))
        return bytes(found[:found.index(None)] if None in found else found)

    # ---- where an instruction begins

    def first_hit(self, first, last, addresses):
        """The first step from `first` to before `last` that begins one of these instructions, or None."""
        near = next((it for it in self.windows if first in it), None)
        while near and first < min(last, near.last):
            if self.is_at(first, addresses):
                return first
            first += 1
        found = [it for it in (self.first_of(first, last, some) for some in by_64(addresses)) if it is not None]
        return min(found, default=None)

    def first_of(self, first, last, addresses):
        steps = self.steps(first, last, "at", *(f"{it:x}" for it in addresses))
        return next((it.number for it in steps if it.eip in addresses and begins_instruction(it)), None)

    def last_hit(self, last, addresses):
        """The last step before `last` that begins one of these instructions, or None."""
        near = next((it for it in self.windows if last in it), None)
        while near and last > near.first:
            last -= 1
            if self.is_at(last, addresses):
                return last
        found = [it for it in (self.last_of(last, some) for some in by_64(addresses)) if it is not None]
        return max(found, default=None)

    def last_of(self, last, addresses):
        found = None
        for it in self.steps(0, last, "at", *(f"{at:x}" for at in addresses)):
            if it.eip in addresses and begins_instruction(it):
                found = it.number
        return found

    def first_outside(self, first, last, low, high, addresses):
        """The first step from `first` on whose EIP isn't from `low` to before `high`, or that begins one of these instructions."""
        near = next((it for it in self.windows if first in it), None)
        while near and first < min(last, near.last):
            if not low <= near.state(first).eip < high or self.is_at(first, addresses):
                return first
            first += 1
        for it in self.steps(first, last):
            if not low <= it.eip < high or it.eip in addresses and begins_instruction(it):
                return it.number
        return None

    # ---- where bytes change

    def writes(self, first, last, address, size):
        """The steps that wrote to a range, each with what it put there by its place in the range."""
        for it in self.steps(first, last, "on", f"{address:x}", str(size)):
            at, data = stored_by(it) or (0, b"")
            put = {at + i - address: byte for i, byte in enumerate(data) if 0 <= at + i - address < size}
            if put:
                yield it.number, put

    def first_change(self, first, last, address, size):
        """The first step from `first` to before `last` after which the bytes are others, or None. An instruction that writes to the range
        is found by itself. What changes them otherwise (a frame of a delivery, another mapping, a load of CR3) shows by the value, and is
        found by halving."""
        old = self.value(first, address, size)
        for n, put in self.writes(first, last, address, size):
            if any(i >= len(old) or old[i] != byte for i, byte in put.items()):
                return n if self.value(n, address, size) == old else self.halved(first, n, lambda m: self.value(m, address, size) != old)
        if self.value(last, address, size) == old:
            return None
        return self.halved(first, last, lambda m: self.value(m, address, size) != old)

    def last_change(self, last, address, size):
        """The last step before `last` by which the bytes became what they are before `last`, or None."""
        now, value, found = self.value(last, address, size), bytearray(self.value(0, address, size).ljust(size, b"\0")), None
        for n, put in self.writes(0, last, address, size):
            old = bytes(value)
            for i, byte in put.items():
                value[i:i + 1] = bytes([byte])
            if value != old:
                found = n, old
        if bytes(value) == now and found and self.value(found[0] + 1, address, size) == now:
            return found[0]
        if found is None and bytes(value) == now:
            return None
        return self.halved(found[0] + 1 if found else 0, last, lambda m: self.value(m, address, size) == now)

    @staticmethod
    def halved(low, high, holds):
        """The step from before which it doesn't hold to after which it does."""
        while low + 1 < high:
            middle = (low + high) // 2
            if holds(middle):
                high = middle
            else:
                low = middle
        return low


def by_64(addresses):
    ordered = sorted(addresses)
    return [ordered[i:i + AT_ONCE] for i in range(0, len(ordered), AT_ONCE)]
