"""The directed kernels, by subject. Each family is a function whose first lines of text say what of the standards it asks.

Not proved; they rest on the manuals that they name.
"""
import importlib
import inspect

SUBJECTS = (
    "segments", "levels", "returns", "deliveries", "paging", "translations", "code", "arithmetic", "tables", "interrupts", "timer", "serial",
)


def all_kernels():
    """Each kernel: its subject, its name, the kernel, and what it asks."""
    for subject in SUBJECTS:
        for family in importlib.import_module(f"kernels.{subject}").FAMILIES:
            about = inspect.cleandoc(family.__doc__)
            for name, kernel in family():
                yield subject, name, kernel, about
