"""A few consecutive machines of a run with all of their memory, from a handful of runs.

Not proved. It rests on `look state` and `look steps` for registers, cached translations and what each step wrote, on `pv save` for
the memory at the window's beginning and end, and on docs/FORMATS.md for the bytes that a step changes besides what its instruction
writes: the frame of a delivery, accessed and dirty flags, accessed and busy descriptors. What comes out at the end is compared with
the memory that was saved there, each byte; where it is another, the window says so (`is_exact`), and memory has to be asked of `look`.
"""
from looked import PAGE, begins_instruction, delivery_of, stored_by

PRESENT, WRITE, USER, ACCESSED, DIRTY, LARGE = 1, 2, 4, 0x20, 0x40, 0x80
HEADER = 256
MASK = 0xffffffff


class Walk:
    """What a walk for a linear address finds: the places of the PDE and the PTE, and the physical address or None."""

    def __init__(self, word, state, address):
        self.word_places, self.physical = [], None
        directory = (state.number["cr3"] & ~0xfff) + (address >> 22) * 4
        pde = word(directory)
        if pde is None or not pde & PRESENT:
            return
        self.word_places = [directory]
        if pde & LARGE and state.number["cr4"] & 0x10:
            self.physical = pde & 0xffc00000 | address & 0x3fffff
            return
        place = (pde & ~0xfff) + (address >> 12 & 1023) * 4
        pte = word(place)
        if pte is None or not pte & PRESENT:
            return
        self.word_places = [directory, place]
        self.physical = pte & ~0xfff | address & 0xfff


class Window:
    """The machines before steps `first` to `last`, and the steps between them."""

    def __init__(self, states, steps, memory, memory_at_end):
        self.states, self.steps, self.memory = states, steps, memory
        self.first, self.last = min(states), max(states)
        self.changed = {self.first: {}}
        for n in range(self.first, self.last):
            self.changed[n + 1] = self.after(n)
        self.is_exact = self.reaches(memory_at_end)

    def __contains__(self, n):
        return self.first <= n <= self.last

    def state(self, n):
        return self.states[n]

    def reaches(self, memory_at_end):
        """Whether the changes lead from the memory at the beginning to that at the end."""
        made = bytearray(self.memory)
        for place, byte in self.changed[self.last].items():
            made[place] = byte
        return made == memory_at_end

    # ---- memory before step n, by physical and by linear address

    def byte(self, n, place):
        changed = self.changed[n].get(place)
        return self.memory[place] if changed is None else changed

    def word(self, n, place):
        if place + 4 > len(self.memory):
            return None
        return int.from_bytes(bytes(self.byte(n, place + i) for i in range(4)), "little")

    def walk(self, n, address):
        return Walk(lambda place: self.word(n, place), self.states[n], address)

    def physical(self, n, address):
        """By what is cached, and else by a walk, as the machine goes."""
        kept = self.states[n].cached.get(address >> 12)
        return kept.frame * PAGE | address & 0xfff if kept else self.walk(n, address).physical

    def bytes(self, n, address, size):
        """Up to the first byte that nothing maps."""
        found = bytearray()
        while len(found) < size:
            at = (address + len(found)) & MASK
            some = min(size - len(found), PAGE - at % PAGE)
            place = self.physical(n, at)
            if place is None or place + some > len(self.memory):
                break
            changed = self.changed[n]
            piece = bytearray(self.memory[place:place + some])
            for i in range(some if changed else 0):
                piece[i] = changed.get(place + i, piece[i])
            found += piece
        return bytes(found)

    # ---- what step n changes

    def after(self, n):
        """The changed bytes after step n, of those at the window's beginning."""
        before, now, step = self.states[n], self.states[n + 1], self.steps[n]
        writes = self.writes(before, now, step)
        changed = dict(self.changed[n])
        pages = [at >> 12 for at in self.fetched(before, step)]
        pages += [page for page, kept in now.cached.items() if before.cached.get(page) != kept]
        dirty = {at + i >> 12 for at, data in writes for i in (0, len(data) - 1)}
        dirty |= {page for page, kept in now.cached.items() if kept.dirty and before.cached.get(page) != kept}
        self.flag_tables(n, changed, pages, dirty)
        for at, data in writes:
            for i, byte in enumerate(data):
                self.put(n, changed, at + i & MASK, byte)
        self.flag_descriptors(n, changed, before, now)
        return changed

    def put(self, n, changed, address, byte):
        """By what was cached, where it lets a write go on, and else by what the step's walk found."""
        kept, found = (self.states[m].cached.get(address >> 12) for m in (n, n + 1))
        used = kept if kept and kept.dirty else found or kept
        place = used.frame * PAGE | address & 0xfff if used else self.walk(n, address).physical
        if place is not None and place < len(self.memory):
            changed[place] = byte

    @staticmethod
    def fetched(before, step):
        """The first and the last byte of the instruction, where it was fetched."""
        denied = any(it.startswith("#PF") and f"at {step.eip:08x}"[:-3] in it for it in step.entries)
        if not begins_instruction(step) or not before.length or denied:
            return []
        return [step.eip, step.eip + before.length - 1 & MASK]

    def writes(self, before, now, step):
        """Addresses and bytes: what the instruction wrote, or the frame of a delivery."""
        delivery = delivery_of(step)
        if delivery is None:
            stored = stored_by(step)
            return [stored] if stored else []
        eip = before.eip + before.length if delivery.saves_next else before.eip
        words = [] if delivery.code is None else [delivery.code]
        words += [eip & MASK, before.number["cs"], before.number["eflags"]]
        if before.number["level"] != now.number["level"]:
            words += [before.number["esp"], before.number["ss"]]
        return [(now.number["esp"], b"".join(it.to_bytes(4, "little") for it in words))]

    def flag_tables(self, n, changed, pages, dirty):
        """Accessed and dirty flags of pages that the step walked for: those that weren't cached for that use."""
        for page in {*pages, *dirty}:
            kept = self.states[n].cached.get(page)
            if kept and (kept.dirty or page not in dirty):
                continue
            walk = self.walk(n, page << 12)
            if walk.physical is None:
                continue
            for place in walk.word_places:
                flags = ACCESSED | (DIRTY if page in dirty and place == walk.word_places[-1] else 0)
                changed[place] = changed.get(place, self.byte(n, place)) | flags

    def flag_descriptors(self, n, changed, before, now):
        """The accessed flag of a descriptor that was loaded, and the busy flag of a TSS."""
        for name, flag in (("es", 1), ("cs", 1), ("ss", 1), ("ds", 1), ("tr", 2)):
            selector = now.number[name]
            is_same = selector == before.number[name] and now.hidden[name] == before.hidden[name]
            if is_same or selector < 4:
                continue
            place = self.physical(n, before.number["gdtr"] + (selector & ~7) + 5 & MASK)
            if place is not None and place < len(self.memory):
                changed[place] = changed.get(place, self.byte(n, place)) | flag
