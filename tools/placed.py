"""Objects and images, and where `link` puts each part of an object.

Not proved. It is written again from docs/FORMATS.md (Objects, Images), apart from the proved program, and rests on nothing but
Python. That it is right for a given image is compared each time: `same` makes all text and data from the objects by itself, with
every relocation done, and asks that each byte is the image's. Zeroed data has no bytes: its end is compared, and each address of it that
text or data hold.
"""
import functools
import os
import struct
from collections import namedtuple

TEXT, DATA = 0x10000000, 0x11000000
END_OF_TEXT = b"\xeb\xfe"
R_386_32, R_386_PC32 = 1, 2
LOCAL, GLOBAL = 0, 1
FILE, SECTION = 4, 3

Section = namedtuple("Section", "name type flags address offset size link info align entry")
Symbol = namedtuple("Symbol", "name place value size binding type")
Field = namedtuple("Field", "place at symbol relative")
Name = namedtuple("Name", "address size place name binding object")


class Bad(Exception):
    """A file that isn't in its form, or can't be read."""


class Other(Exception):
    """Files that are in form, and aren't those of the image."""


def round_up(n, k):
    return -(-n // k) * k if k else n


def read_file(path):
    try:
        with open(path, "rb") as file:
            return file.read()
    except OSError as error:
        raise Bad(f"{path}: {error.strerror}") from None


class Elf:
    """The header, the sections and their names of a file of 32 bits for the Intel386."""

    def __init__(self, path, kind, what):
        self.path = path
        self.bytes = bytes_ = read_file(path)
        if bytes_[:4] != b"\x7fELF" or len(bytes_) < 52:
            self.bad(f"it is no ELF file, so no {what}")
        if bytes_[4:7] != b"\1\1\1":
            self.bad("it isn't an ELF file of 32 bits, little-endian, version 1")
        form, machine = self.take("HH", 16)
        if form != kind or machine != 3:
            self.bad(f"it is no {what}: type {form}, machine {machine}, where {kind} and 3 are wanted")
        self.entry, self.segments_at, self.sections_at = self.take("III", 24)
        self.segment_size, self.segment_count, self.section_size, self.section_count, self.names_in = self.take("HHHHH", 42)
        if self.section_count and self.section_size != 40:
            self.bad("its table of sections has entries of another size than 40")
        self.sections = self.read_sections()

    def bad(self, why):
        raise Bad(f"{self.path}: {why}")

    def take(self, form, at):
        try:
            return struct.unpack_from("<" + form, self.bytes, at)
        except struct.error:
            self.bad(f"it is cut: {struct.calcsize('<' + form)} bytes are wanted at {at:#x}, of {len(self.bytes):#x}")

    def read_sections(self):
        headers = [self.take("10I", self.sections_at + 40 * i) for i in range(self.section_count)]
        for header in headers:
            if header[1] not in (0, 8) and header[4] + header[5] > len(self.bytes):
                self.bad(f"it is cut: a section is to end at {header[4] + header[5]:#x}, of {len(self.bytes):#x}")
        if headers and self.names_in >= len(headers):
            self.bad("its header names no table of section names")
        return [Section(self.string(headers[self.names_in], h[0]) if h[1] else "", *h[1:]) for h in headers]

    def string(self, header, at):
        start, end = header[4] + at, header[4] + header[5]
        stop = self.bytes.find(0, start, end)
        if not header[4] <= start < end or stop < 0:
            self.bad(f"a name at {at:#x} doesn't end in its table")
        return self.bytes[start:stop].decode("latin-1")

    def contents(self, section):
        return self.bytes[section.offset:section.offset + section.size]


class Image(Elf):
    """What `link` writes."""

    def __init__(self, path):
        super().__init__(path, 2, "image")
        loaded = [self.take("8I", self.segments_at + self.segment_size * i) for i in range(self.segment_count)]
        loaded = [it for it in loaded if it[0] == 1]
        if len(loaded) != 2 or [it[2] for it in loaded] != [TEXT, DATA]:
            self.bad(f"it is no image: two loaded parts are wanted, at {TEXT:x} and {DATA:x}")
        (_, text_in, _, _, text_size, *_), (_, data_in, _, _, data_size, self.memory, *_) = loaded
        self.text, self.data = self.bytes[text_in:text_in + text_size], self.bytes[data_in:data_in + data_size]
        if len(self.text) < text_size or len(self.data) < data_size:
            self.bad("it is cut: a loaded part passes its end")


class Object(Elf):
    """What `burn` writes: the parts `text`, `data` and `bss`, symbols and relocated fields. `start[i]` is where what is in
    section i begins within the part to which it is joined."""

    def __init__(self, path):
        super().__init__(path, 1, "object")
        self.text, self.data, self.bss = b"", b"", 0
        self.place, self.start = {}, {}
        for i, section in enumerate(self.sections):
            self.join(i, section)
        self.symbols, self.fields = [], []
        tables = [i for i, it in enumerate(self.sections) if it.type == 2 and not it.flags & 2]
        if tables:
            self.symbols = self.read_symbols(self.sections[tables[0]])
        for place in ("text", "data"):
            for section in self.sections:
                if section.type == 9 and not section.flags & 2 and self.place.get(section.info) == place:
                    self.fields += self.read_fields(section, place)

    def join(self, i, section):
        if section.type in (0, 7) or section.name == ".pv_sites" or not section.flags & 2:
            return
        if section.type not in (1, 8):
            self.bad(f"the section {section.name} is allocated, and of type {section.type}")
        if section.align & section.align - 1 or section.align > 4096 and not section.flags & 4:
            self.bad(f"the section {section.name} has the alignment {section.align}")
        place = "bss" if section.type == 8 else "text" if section.flags & 4 else "data"
        self.place[i] = place
        if place == "text":
            if "text" in [self.place[k] for k in self.place if k != i]:
                self.bad("it has two sections of text")
            self.start[i], self.text = 0, self.contents(section)
        elif place == "data":
            self.start[i] = round_up(len(self.data), section.align)
            self.data = self.data.ljust(self.start[i], b"\0") + self.contents(section)
        else:
            self.start[i] = round_up(self.bss, section.align)
            self.bss = self.start[i] + section.size

    def read_symbols(self, table):
        if table.link >= len(self.sections):
            self.bad("its symbols have no table of names")
        strings, symbols = self.sections[table.link], []
        for k in range(table.size // 16):
            name, value, size, info, _, section = self.take("IIIBBH", table.offset + 16 * k)
            place = self.place.get(section)
            symbols.append(Symbol(self.string(strings, name), place, value + self.start.get(section, 0), size, info >> 4, info & 15))
        return symbols

    def read_fields(self, section, place):
        for k in range(section.size // 8):
            at, info = self.take("II", section.offset + 8 * k)
            at += self.start[section.info]
            if info & 255 not in (R_386_32, R_386_PC32):
                self.bad(f"a relocation of {place} at {at:#x} has the type {info & 255}")
            if not 0 < info >> 8 < len(self.symbols) or at + 4 > len(self.part(place)):
                self.bad(f"a relocation of {place} at {at:#x} names no symbol, or no field")
            yield Field(place, at, self.symbols[info >> 8], info & 255 == R_386_PC32)

    def part(self, place):
        return self.text if place == "text" else self.data

    def size(self, place):
        return self.bss if place == "bss" else len(self.part(place))


class Placed:
    """Objects in the order of the link, each part at its linear address: `at[place][i]`."""

    def __init__(self, paths):
        self.objects = [Object(path) for path in paths]
        self.at = {}
        self.at["text"], _ = self.sums("text", TEXT, 16)
        self.at["data"], behind_data = self.sums("data", DATA, 4096)
        self.at["bss"], _ = self.sums("bss", behind_data, 4096)
        self.globals = self.defined()
        self.text_end = self.at["text"][-1] + len(self.objects[-1].text)
        self.data_end = self.end("data", DATA)
        self.memory_end = self.end("bss", self.data_end)
        self.text = self.joined("text", b"\x90") + END_OF_TEXT
        self.data = self.joined("data", b"\0")[:self.data_end - DATA]

    def sums(self, place, first, step):
        """Where the parts of the objects begin, and where a further one would."""
        places = []
        for it in self.objects:
            places.append(first)
            first += round_up(it.size(place), step)
        return places, first

    def end(self, place, where_none):
        return max([at + it.size(place) for at, it in zip(self.at[place], self.objects) if it.size(place)], default=where_none)

    def address(self, i, symbol):
        return (self.at[symbol.place][i] + symbol.value) % 2 ** 32

    def defined(self):
        found = {}
        for i, it in enumerate(self.objects):
            for symbol in it.symbols:
                if symbol.binding == GLOBAL and symbol.place:
                    if symbol.name in found:
                        first = self.objects[found[symbol.name][0]].path
                        raise Other(f"{it.path}: the global name {symbol.name} is defined in {first} too")
                    found[symbol.name] = (i, symbol)
        return found

    def meant(self, i, symbol):
        if symbol.place:
            return self.address(i, symbol)
        if symbol.binding == GLOBAL and symbol.name in self.globals:
            return self.address(*self.globals[symbol.name])
        raise Other(f"{self.objects[i].path}: the name {symbol.name} is defined in none of the objects")

    def joined(self, place, fill):
        """The bytes of all objects, with their fields filled: S + A, and S + A - P."""
        first, whole = self.at[place][0], bytearray()
        for i, it in enumerate(self.objects):
            at = self.at[place][i]
            whole += fill * (at - first - len(whole))
            mine = bytearray(it.part(place))
            for field in it.fields:
                if field.place == place:
                    addend, = struct.unpack_from("<I", mine, field.at)
                    value = self.meant(i, field.symbol) + addend - (at + field.at if field.relative else 0)
                    struct.pack_into("<I", mine, field.at, value % 2 ** 32)
            whole += mine
        return bytes(whole)

    def owner(self, place, address):
        """The object whose part holds this address, or stands last before it."""
        held = [it.path for at, it in zip(self.at[place], self.objects) if at <= address and it.size(place)]
        return held[-1] if held else self.objects[0].path

    def same(self, image):
        """Refuses objects that aren't those of the image."""
        for place, first, mine, theirs in (("text", TEXT, self.text, image.text), ("data", DATA, self.data, image.data)):
            if mine != theirs:
                at = next((k for k in range(min(len(mine), len(theirs))) if mine[k] != theirs[k]), min(len(mine), len(theirs)))
                has = [f"{it[at]:02x}" if at < len(it) else f"no byte (they end at {len(it):#x})" for it in (mine, theirs)]
                raise Other(f"{image.path}: these aren't its objects: {place} differs first at offset {at:#x}, address {first + at:08x}, "
                            f"in or behind {self.owner(place, first + at)}: from the objects {has[0]}, in the image {has[1]}")
        if self.memory_end - DATA != image.memory:
            raise Other(f"{image.path}: these aren't its objects: data with zeroed data ends at offset {self.memory_end - DATA:#x} "
                        f"from the objects, at {image.memory:#x} in the image")
        entry = self.address(*self.globals["_start"]) if "_start" in self.globals else TEXT
        if entry != image.entry:
            raise Other(f"{image.path}: these aren't its objects: the entry is {entry:08x} from the objects, "
                        f"{image.entry:08x} in the image")

    def labels(self):
        """A short name for each object: its file's, and its number where two are alike."""
        stems = [os.path.splitext(os.path.basename(it.path))[0] for it in self.objects]
        return [stem if stems.count(stem) == 1 else f"{stem}.{i}" for i, stem in enumerate(stems)]

    @functools.cached_property
    def names(self):
        """All names but those that begin with .L, by their addresses. A local name that stands more than once gets its
        object's. A name without a size reaches to the next one of its part, or to the part's end."""
        found, labels = [], self.labels()
        for i, it in enumerate(self.objects):
            for symbol in it.symbols:
                if symbol.place and symbol.name and not symbol.name.startswith(".L") and symbol.type not in (FILE, SECTION):
                    found.append((self.address(i, symbol), symbol, i))
        count = {}
        for _, symbol, _ in found:
            count[symbol.name] = count.get(symbol.name, 0) + 1
        starts = sorted({(symbol.place, i, address) for address, symbol, i in found})
        ends = {}
        for here, behind in zip(starts, starts[1:] + [(None, None, None)]):
            part_end = self.at[here[0]][here[1]] + self.objects[here[1]].size(here[0])
            ends[here] = behind[2] if behind[:2] == here[:2] else max(part_end, here[2])
        whole = []
        for address, symbol, i in sorted(found, key=lambda it: (it[0], it[2], it[1].name)):
            name = f"{symbol.name}@{labels[i]}" if symbol.binding == LOCAL and count[symbol.name] > 1 else symbol.name
            size = symbol.size or ends[symbol.place, i, address] - address
            whole.append(Name(address, size, symbol.place, name, symbol.binding, i))
        return whole
