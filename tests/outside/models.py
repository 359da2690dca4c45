"""The outside models by their names, and which kernels each can run."""
import shutil

import bochs
import qemu

MODELS = {"bochs": bochs, "qemu": qemu}
RANDOM = "random"           # the subject of the random kernels
RANDOM_IN = ("bochs",)      # QEMU's simplifications are met by nearly all of them
HAS_SCRIPT = ("qemu",)      # takes the bytes of a kernel's script
HAS_TIMER = ("bochs",)      # its timer goes by its instructions


def wanting(models):
    """The packages of Debian that aren't there."""
    programs = {"nasm": "nasm", **{MODELS[model].PROGRAM: MODELS[model].PACKAGE for model in models}}
    return sorted(package for program, package in programs.items() if not shutil.which(program))


def runs_in(model, subject, kernel):
    """Whether a kernel is run in a model."""
    has_devices = (not kernel.script or model in HAS_SCRIPT) and (not kernel.timer or model in HAS_TIMER)
    return has_devices and (subject != RANDOM or model in RANDOM_IN)
