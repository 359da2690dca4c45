"""Builds a program of this repository where it is out of date, and runs it: the slow part of tools/program.sh. It isn't proved.

usage: program.py NAME CRATE WORD ..    what it says begins with NAME, CRATE is the crate of the program, the words are the program's

A program is current where the contents of its sources are those that it was made of. Beside it stand NAME.made, with the digests
of both; NAME.list, its files and folders; and NAME.seen, what tools/program.sh compares for its quick test. Where the gate has made
the program, or somebody has put it there, its time decides: it is current where no source and no folder of sources is newer.

The build is the gate's, a plain rt ci, over a copy of the crates that the program stands on, without their must-fail edits. It
proves independent crates side by side: one for each processor that has 3 GB of free memory, or as many as PV_JOBS says. Each is reported
on standard error with its number and the time that is gone. A kit whose rt ci keeps what it has proved keeps it for each checkout on
this machine: a build that was stopped goes on from there when it is begun again, and .ci/run takes it over.
"""
import hashlib
import os
import re
import shutil
import signal
import subprocess
import sys
import tempfile
import time

TOP = os.path.dirname(os.path.dirname(os.path.realpath(__file__)))
NAME, CRATE = (sys.argv + ["", ""])[1:3]
OUT = f"crates/{CRATE}/out/{CRATE}"
PROGRAM = f"{TOP}/{OUT}"
PARTS = ("src", "specs", "proofs")
MEMORY_OF_ONE = 3_000_000_000
# A clock's tick may give two changes one time, so what was changed within this time isn't taken as seen.
TICK = 0.1


def crates_below(root):
    """Returns the crates that one stands on, and itself, each with its line of crates.txt."""
    with open(f"{TOP}/crates.txt", encoding="utf-8") as it:
        lines = {line.partition(":")[0].strip(): line for line in it if line.partition("#")[0].strip()}
    if root not in lines:
        sys.exit(f"{NAME}: crates.txt has no crate {root}")
    found, ways = {}, [root]
    while ways:
        name = ways.pop()
        found[name] = lines[name]
        uses = lines[name].partition("#")[0].partition(":")[2].split()
        ways += [it for it in uses if it in lines and it not in found]
    return found


def files_and_folders(crates):
    """Returns what the program is made of, by its place below the top, and the folders in which more of it could come to stand."""
    files, folders = ["crates.txt"], []
    for crate in crates:
        folders.append(f"crates/{crate}")
        for part in PARTS:
            for at, _, names in os.walk(f"{TOP}/crates/{crate}/{part}", followlinks=True):
                at = os.path.relpath(at, TOP)
                folders.append(at)
                files += (f"{at}/{name}" for name in names if name.endswith((".rt", ".antt")))
    return files, folders


def looks(names):
    """Returns what stat shows of each: its last change, its size and its inode."""
    shown = (os.stat(f"{TOP}/{name}") for name in names)
    return [(it.st_ctime_ns, it.st_size, it.st_ino) for it in shown]


def digest_of_file(file):
    with open(file, "rb") as it:
        return hashlib.sha256(it.read()).hexdigest()


def digest_of_sources(top, crates):
    """Returns one digest of the lines of crates.txt and of each source, with its place; those of a copy are those of its original."""
    whole = hashlib.sha256("".join(crates[it] for it in sorted(crates)).encode())
    for crate in sorted(crates):
        for part in PARTS:
            for at, below, names in os.walk(f"{top}/crates/{crate}/{part}", followlinks=True):
                below.sort()
                for name in sorted(it for it in names if it.endswith((".rt", ".antt"))):
                    file = f"{at}/{name}"
                    whole.update(f"\n{os.path.relpath(file, top)} {digest_of_file(file)}".encode())
    return whole.hexdigest()


def store(file, text):
    """Puts a text in the place of a file at once. Where it may not be written, the quick test finds nothing, and this one goes on."""
    new = f"{file}.{os.getpid()}"
    try:
        with open(new, "w", encoding="utf-8") as to:
            to.write(text)
        os.replace(new, file)
    except OSError:
        pass


def made_of(program):
    """Returns the digest of the sources of which the program with this digest was made; none where it was put there since then."""
    try:
        with open(f"{PROGRAM}.made", encoding="utf-8") as it:
            told, sources = it.read().split()
        since = os.stat(PROGRAM).st_mtime > os.stat(f"{PROGRAM}.made").st_mtime
        return sources if told == program and not since else None
    except (OSError, ValueError):
        return None


def is_current():
    """Tells whether the program is that of the sources, and leaves what the quick test needs where it is."""
    if not os.access(PROGRAM, os.X_OK):
        return False
    crates = crates_below(CRATE)
    files, folders = files_and_folders(crates)
    listed = [OUT, "tools/program.py", *files, *folders]
    before = looks(listed)
    program, sources = digest_of_file(PROGRAM), digest_of_sources(TOP, crates)
    made = made_of(program)
    if made and made != sources:
        return False
    if not made:
        time_of = os.stat(PROGRAM).st_mtime
        if any(os.stat(f"{TOP}/{it}").st_mtime > time_of for it in files + [it for it in folders if it.count("/") > 1]):
            return False
        store(f"{PROGRAM}.made", f"{program} {sources}\n")
    if looks(listed) == before and max(it[0] for it in before) < (time.time() - TICK) * 1e9:
        store(f"{PROGRAM}.list", "".join(f"{os.path.relpath(it, 'crates')}\n" for it in listed))
        store(f"{PROGRAM}.seen", "".join(f"{at // 10**9}.{at % 10**9:09} {size} {inode}\n" for at, size, inode in before))
    return True


def number_in(file):
    with open(file, encoding="utf-8") as it:
        return int(it.read())


def free_memory():
    """Returns the free memory in bytes; a control group may have less than the machine."""
    with open("/proc/meminfo", encoding="utf-8") as it:
        free = next(1024 * int(line.split()[1]) for line in it if line.startswith("MemAvailable:"))
    try:
        limit, held = (number_in(f"/sys/fs/cgroup/memory.{it}") for it in ("max", "current"))
        return min(free, limit - held)
    except (OSError, ValueError):
        # no such group, or one with no limit
        return free


def jobs_of_machine():
    """Returns how many crates are worked on at a time. rt by itself reckons with more memory than they take."""
    if os.environ.get("PV_JOBS", "").isdigit():
        return max(int(os.environ["PV_JOBS"]), 1)
    return max(min(len(os.sched_getaffinity(0)), free_memory() // MEMORY_OF_ONE), 1)


def can_keep(rt):
    """Whether rt ci keeps beside its kit what it has proved: a kit whose rt ci takes names does, where it may write there."""
    told = subprocess.run([rt, "help"], capture_output=True, text=True, errors="replace", stdin=subprocess.DEVNULL)
    if not re.search(r"\brt ci +\[?NAME", told.stdout + told.stderr):
        return False
    beside = os.path.dirname(os.path.dirname(os.path.dirname(os.path.realpath(rt))))
    kept = f"{beside}/rattle-kept"
    return os.stat(kept).st_uid == os.geteuid() if os.path.isdir(kept) else os.access(beside, os.W_OK)


def copy_to(room, crates):
    """Makes a repository of these crates alone. Edits are no part of a program, and a verdict doesn't depend on them."""
    for crate in crates:
        top = f"{TOP}/crates/{crate}"
        how = {"symlinks": True, "ignore": lambda at, _: ["out", "must-fail"] if at == top else []}
        shutil.copytree(top, f"{room}/crates/{crate}", **how)
    shutil.copyfile(f"{TOP}/HANDLES", f"{room}/HANDLES")
    with open(f"{room}/crates.txt", "w", encoding="utf-8") as to:
        to.writelines(crates.values())
    os.mkdir(f"{room}/.git")


def prove(rt, room, jobs, count, tell):
    """Runs the gate in the room, and reports each crate that has passed."""
    said, done = [], 0
    how = {"cwd": room, "env": {**os.environ, "RT_JOBS": str(jobs)}, "text": True, "errors": "replace", "start_new_session": True}
    streams = {"stdin": subprocess.DEVNULL, "stdout": subprocess.PIPE, "stderr": subprocess.STDOUT}
    ran = subprocess.Popen([rt, "ci"], **how, **streams)
    try:
        for line in ran.stdout:
            said.append(line.replace(room, TOP))
            found = re.match(r"rt: (\w+)(: its tests are)? (proved$|is kept: |NOT PROVED)", line)
            if found and found[3] == "NOT PROVED":
                sys.exit(f"{''.join(said)}{NAME}: {found[1]} was not built")
            if found:
                said.clear()
            if found and not found[2]:
                done += 1
                tell(f"{done} of {count}: {found[1]}")
        if ran.wait():
            sys.exit(f"{''.join(said)}{NAME}: the program was not built")
    finally:
        if ran.poll() is None:
            # the provers that it has begun end with it
            os.killpg(ran.pid, signal.SIGKILL)
            ran.wait()


def build(rt):
    crates, begun, room = crates_below(CRATE), time.time(), tempfile.mkdtemp(prefix=f"{NAME}-")

    def tell(text):
        gone = int(time.time() - begun)
        print(f"{NAME}: {gone // 60}:{gone % 60:02}, {text}", file=sys.stderr, flush=True)

    jobs = jobs_of_machine()
    tell(f"the program stands on {len(crates)} crates; those that aren't proved yet are, {jobs} at a time")
    if not can_keep(rt):
        tell("this kit keeps nothing of what is proved, or may not, so a build that is stopped begins anew")
    try:
        copy_to(room, crates)
        sources = digest_of_sources(room, crates)
        prove(rt, room, jobs, len(crates), tell)
        os.makedirs(os.path.dirname(PROGRAM), exist_ok=True)
        new = f"{PROGRAM}.{os.getpid()}"
        shutil.copy(f"{room}/{OUT}", new)
        # what was changed during the build is newer than the program
        os.utime(new, (begun, begun))
        program = digest_of_file(new)
        os.replace(new, PROGRAM)
        store(f"{PROGRAM}.made", f"{program} {sources}\n")
    finally:
        # a second Ctrl-C leaves no copy
        were = {it: signal.signal(it, signal.SIG_IGN) for it in (signal.SIGINT, signal.SIGTERM)}
        shutil.rmtree(room, ignore_errors=True)
        for it, how in were.items():
            signal.signal(it, how)


def main():
    if not is_current():
        rt = shutil.which("rt")
        if not rt:
            sys.exit(f"{NAME}: the program has to be built, and rt, the command of the Rattle toolchain, isn't on the PATH")
        signal.signal(signal.SIGTERM, lambda *_: sys.exit(f"{NAME}: stopped"))
        build(rt)
    os.execv(PROGRAM, [PROGRAM, *sys.argv[3:]])


if __name__ == "__main__":
    try:
        main()
    except KeyboardInterrupt:
        sys.exit(f"{NAME}: stopped")
    except SystemExit as ended:
        if isinstance(ended.code, str):
            print(ended.code, file=sys.stderr)
        sys.exit(2)
