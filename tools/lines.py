"""Lines, types and variables for an image that burn and link made, by GNU as and ld.

Not proved. It rests on GNU as and ld, and on a comparison: the sources are assembled once more, changed so that they spell what burn
spells, and put where `link` put their parts; each byte of text and data must be the image's, and each name must stand where the
objects have it. So the places are right, whatever as and ld did. What the debug sections say besides is what gcc and as wrote.

What is changed in a source: direct branches get 4 bytes, sensitive instructions shorter than five bytes their NOPs, exchanges and
other spellings those that docs/FORMATS.md (Chosen spelling, Where GNU as differs) names; sections are joined into .text, .data, .bss.
"""
import os
import re
import shutil
import subprocess
import tempfile

from placed import DATA, TEXT, Bad, Elf, Other, read_file

SENSITIVE = re.compile(r"(cli|sti|hlt|pushfl?|popfl?|iret|lgdtl?|lidtl?|ltrw?|invlpg|ljmpl?|in[bl]?|out[bl]?|retl?)(\s|$)"
                       r"|(mov|push|pop)[lw]?\s.*%(cr[0-9]|[ecsd]s\b)|(jmp|call)l?\s*\*")
BRANCH = re.compile(r"(j[a-z]+|call)l?\s+(?![*\s])")
SEGMENT_MOVE = re.compile(r"mov[lw]?\s.*%[ecsd]s\b")
LONG = ["eax", "ecx", "edx", "ebx", "esp", "ebp", "esi", "edi"]
BYTE = ["al", "cl", "dl", "bl", "ah", "ch", "dh", "bh"]
EXCHANGE = re.compile(r"xchg[bl]?\s*%(\w+)\s*,\s*%(\w+)$")
LABEL = re.compile(r"\s*([A-Za-z_.$][\w.$]*)\s*:")
SKIPPED = re.compile(r"\.(file|type|size|ident|code32|loc|cfi_\w+)\b")
UNREAD = re.compile(r"\.(note|comment|debug|eh_frame)")
PAD = "\t.macro pv_pad\n\t.skip -((. - 771b) < 5) * (5 - (. - 771b)), 0x90\n\t.endm\n"


def statements(text):
    """The number of its line and each statement, without comments: split at newlines and semicolons that stand in no string."""
    found, now, line, at = [], "", 1, 0
    first = line
    token = re.compile(r'"(?:[^"\\\n]|\\.)*"|/\*.*?\*/|#[^\n]*|\'.|[\n;]|[^"/#\'\n;]+|.', re.S)
    while at < len(text):
        part = token.match(text, at).group()
        at += len(part)
        if part in "\n;":
            found.append((first, now.strip()))
            now = ""
        elif part.startswith("/*"):
            now += " "
        elif not part.startswith("#"):
            if not now.strip():
                first = line
            now += part
        line += part.count("\n")
        if not now.strip():
            first = line
    return found + [(first, now.strip())]


def labels_of(statement):
    """Its labels, and what stands behind them."""
    found = []
    while (label := LABEL.match(statement)):
        found.append(label[1])
        statement = statement[label.end():].strip()
    return found, statement


class Source:
    """A source of burn as one of GNU as."""

    def __init__(self, path):
        self.path = path
        self.text = read_file(path).decode("latin-1")
        self.parts = [(line, *labels_of(statement)) for line, statement in statements(self.text)]
        said = [statement.split() for _, _, statement in self.parts if statement]
        self.is_global = {it[1] for it in said if it[0] in (".globl", ".global") and len(it) > 1}
        self.is_local = {it[1] for it in said if it[0] == ".local" and len(it) > 1}
        self.has_lines = any(it[0] == ".section" and it[1].startswith(".debug_line") for it in said if len(it) > 1)
        self.own_frames = any(it[0] == ".cfi_sections" for it in said)
        self.section, self.read, self.paired = ".text", True, False

    def converted(self):
        out = [PAD if self.own_frames else PAD + "\t.cfi_sections .debug_frame\n"]
        for i, (line, labels, statement) in enumerate(self.parts):
            out.append(f'# {line} "{os.path.abspath(self.path)}"\n')
            if labels:
                self.paired = False
            out.append("".join(f"{it}: " for it in labels) + "\t" + (self.statement(statement, i) if statement else "") + "\n")
        return "".join(out)

    def statement(self, it, i):
        it = re.sub(r'^([A-Za-z_.][\w.]*)(?=[%*"(])', r"\1 ", it)
        word = it.split()[0]
        if word in (".text", ".data", ".bss", ".section"):
            return self.change(it)
        if not self.read or SKIPPED.match(word):
            return it
        if word.startswith("."):
            return self.directive(word, it)
        return self.instruction(it, i)

    def change(self, it):
        """Another section: those that begin with .text are text, and so on."""
        name = re.split(r"[\s,]+", it)[1].strip('"') if it.startswith(".section") else it.split()[0]
        self.read = not UNREAD.match(name)
        if not self.read:
            return it
        self.section = ".data" if name.startswith((".rodata", ".data")) else ".bss" if name.startswith(".bss") else ".text"
        return self.section

    def directive(self, word, it):
        args = [arg.strip() for arg in it[len(word):].split(",")]
        if word in (".p2align", ".align", ".balign"):
            most = args[2] if len(args) > 2 and args[2] else ""
            if most == "0":
                return ""
            fill = "0x90" if self.section == ".text" else "0"
            return f"{word} {args[0]}," + ("" if self.section == ".bss" else fill) + (f",{most}" if most else "")
        if word in (".comm", ".lcomm"):
            name, size, align = args[0], args[1], args[2] if len(args) > 2 else "1"
            shown = word == ".comm" and (name in self.is_global or name not in self.is_local)
            return "\n\t".join([".pushsection .bss", f".balign {align}", *([f".globl {name}"] if shown else []), f"{name}:",
                                f".zero {size}", ".popsection"])
        return it

    def instruction(self, it, i):
        if SEGMENT_MOVE.match(it):
            it = re.sub(r"^mov[lw]", "mov", it)
        if (exchange := EXCHANGE.match(it)):
            return self.exchange(it, *exchange.groups())
        if re.match(r"int\s*\$0*3$", it):
            return ".byte 0xcd,3"
        if re.match(r"retl?\s*\$0+$", it):
            it = "ret"
        if it == "sti" and self.before_halt(i):
            self.paired = True
            return "771:\tsti"
        if SENSITIVE.match(it):
            start, self.paired = "" if self.paired and it == "hlt" else "771:", False
            return f"{start}\t{it}\n\tpv_pad"
        if BRANCH.match(it):
            return "{disp32} " + re.sub(r"^(jmp|call)l\b", r"\1", it)
        return it

    def before_halt(self, i):
        """The next statement that isn't skipped is HLT, without a label."""
        for _, labels, statement in self.parts[i + 1:]:
            if labels:
                return False
            if statement and not SKIPPED.match(statement):
                return statement == "hlt"
        return False

    @staticmethod
    def exchange(it, *names):
        """XCHG of two registers: r/m names that of the lower number."""
        for registers, opcode in ((LONG, 0x87), (BYTE, 0x86)):
            if set(names) <= set(registers):
                low, high = sorted(registers.index(name) for name in names)
                short = opcode == 0x87 and low == 0 < high
                return f".byte {0x90 + high:#x}" if short else f".byte {opcode:#x},{0xc0 + 8 * high + low:#x}"
        return it


def command(words, what):
    if not shutil.which(words[0]):
        raise Bad(f"--lines wants {words[0]} of binutils, which isn't here; names alone don't")
    done = subprocess.run(words, capture_output=True, text=True, errors="replace", check=False)
    if done.returncode:
        raise Bad(f"{words[0]}: {what}: {(done.stderr or done.stdout).strip()}")


def script_of(placed, files):
    """Each part of each object at its place, whatever alignment GNU as gave its sections. One without bytes can have names: it
    gets a section of its own, which `. = .` keeps."""
    out = ["SECTIONS {"]
    for place in ("text", "data", "bss"):
        for i, file in enumerate(files):
            if not placed.objects[i].size(place):
                out.append(f' .no_{place}_{i} {placed.at[place][i]:#x} : SUBALIGN(1) {{ . = .; "{file}"(.{place}) }}')
    for place, first in (("text", TEXT), ("data", DATA), ("bss", DATA + len(placed.data))):
        out.append(f" .{place} {first:#x} : SUBALIGN(1) {{")
        for i, file in enumerate(files):
            if placed.objects[i].size(place):
                out.append(f'  . = {placed.at[place][i] - first:#x}; "{file}"(.{place})')
        if place == "text":
            out.append(f"  . = {placed.text_end - first:#x}; SHORT(0xfeeb)")
        out.append(" } =0x90909090" if place == "text" else " }")
    return "\n".join(out + [" /DISCARD/ : { *(.note*) *(.comment*) *(.eh_frame*) }", "}", ""])


def fields_in(made, name):
    """The bytes of a section that are filled by the link."""
    found = set()
    for it in made.sections:
        if it.type == 9 and it.info < len(made.sections) and made.sections[it.info].name == name:
            for k in range(it.size // 8):
                at, = made.take("I", it.offset + 8 * k)
                found.update(range(at, at + 4))
    return found


def assembled_alike(source, made, wanted):
    """Refuses a source from which GNU as makes another object than burn, but for the fields that the link fills."""
    for place in ("text", "data", "bss"):
        section = next((it for it in made.sections if it.name == f".{place}"), None)
        size = section.size if section else 0
        if place != "bss" and section:
            filled = fields_in(made, f".{place}").union(*(range(it.at, it.at + 4) for it in wanted.fields if it.place == place))
            got, has = made.contents(section), wanted.part(place)
            at = next((k for k in range(min(len(got), len(has))) if got[k] != has[k] and k not in filled), None)
            if at is not None:
                raise Other(f"{source}: it isn't the source of {wanted.path}, or GNU as spells it otherwise: {place} differs first "
                            f"at offset {at:#x}: from the source {got[at:at + 8].hex(' ')}, in the object {has[at:at + 8].hex(' ')}")
        if size != wanted.size(place):
            raise Other(f"{source}: it isn't the source of {wanted.path}: {size} bytes of {place} from the source, "
                        f"{wanted.size(place)} in the object")


def compare(image, placed, made):
    """Refuses what as and ld made where a byte or a name's place is another than in the image."""
    parts = {it.name: made.contents(it) for it in made.sections if it.name in (".text", ".data")}
    for place, first, wanted in (("text", TEXT, image.text), ("data", DATA, image.data)):
        got = parts.get(f".{place}", b"")
        if got != wanted:
            at = next((k for k in range(min(len(got), len(wanted))) if got[k] != wanted[k]), min(len(got), len(wanted)))
            raise Other(f"{image.path}: these aren't its sources, or GNU as spells one otherwise: {place} differs first at offset "
                        f"{at:#x}, address {first + at:08x}, in or behind {placed.owner(place, first + at)}: "
                        f"from the sources {got[at:at + 8].hex(' ')}, in the image {wanted[at:at + 8].hex(' ')}")
    table = next(it for it in made.sections if it.name == ".symtab")
    strings = made.sections[table.link]
    theirs = set()
    for k in range(table.size // 16):
        name, value, _, info, _, section = made.take("IIIBBH", table.offset + 16 * k)
        if info & 15 < 3 and section and section < 0xff00:
            theirs.add((made.string(strings, name), value))
    for i, it in enumerate(placed.objects):
        for symbol in it.symbols:
            shown = symbol.place and symbol.name and not symbol.name.startswith(".L")
            if shown and (symbol.name, placed.address(i, symbol)) not in theirs:
                raise Other(f"{it.path}: {symbol.name} stands at {placed.address(i, symbol):08x}, and not so by the sources")


def debug_of(image, placed, paths):
    """The debug sections: name, contents, flags, size of an entry."""
    with tempfile.TemporaryDirectory() as room:
        files = []
        for i, path in enumerate(paths):
            source, files = Source(path), files + [f"{room}/{i}.o"]
            with open(f"{room}/{i}.s", "w", encoding="latin-1") as file:
                file.write(source.converted())
            own = [] if source.has_lines else ["-g"]
            command(["as", "--32", "-n", "--no-pad-sections", *own, f"{room}/{i}.s", "-o", files[-1]], path)
            assembled_alike(path, Elf(files[-1], 1, "object"), placed.objects[i])
        with open(f"{room}/script", "w", encoding="ascii") as file:
            file.write(script_of(placed, files))
        command(["ld", "-m", "elf_i386", "-T", f"{room}/script", "-e", f"{image.entry:#x}", *files, "-o", f"{room}/made"], image.path)
        made = Elf(f"{room}/made", 2, "program")
    compare(image, placed, made)
    return [(it.name, made.contents(it), it.flags & 0x30, it.entry) for it in made.sections if it.name.startswith(".debug_")]
