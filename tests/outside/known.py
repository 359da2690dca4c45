"""The known differences between the bare machine and an outside model: known/bochs and known/qemu.

Not proved. A line without blanks before it is a reason, with the place where the rule stands that this project has:
`TEXT [docs/NAME.md: 'PHRASE']`. The page has to have that phrase. The lines after it, with blanks before them, name the kernels
whose first difference has this reason, and may name the registers (or `memory`, `end`) that differ there.
"""
import re

from machine import Wrong

REASON = re.compile(r"(.+) \[(docs/\w+\.md): '(.+)'\]")


class Known:
    """A known difference: its reason, and what differs first, where that is named."""

    def __init__(self, reason, what):
        self.reason, self.what = reason, what

    def covers(self, what):
        return not self.what or self.what == what


def read(path, top):
    """The known differences by their kernels."""
    found, reason = {}, None
    with open(path, encoding="utf-8") as file:
        lines = file.read().splitlines()
    for number, line in enumerate(lines, 1):
        if not line or line.startswith("#"):
            continue
        if not line.startswith(" "):
            parts = REASON.fullmatch(line)
            if not parts:
                raise Wrong(f"{path}: line {number} is no reason with its place")
            with open(f"{top}/{parts[2]}", encoding="utf-8") as page:
                if parts[3] not in page.read():
                    raise Wrong(f"{path}: line {number}: {parts[2]} doesn't have '{parts[3]}'")
            reason = parts[1]
            continue
        name, *what = line.split()
        if reason is None or name in found:
            raise Wrong(f"{path}: line {number}: {name} has no reason, or two")
        found[name] = Known(reason, what)
    return found
