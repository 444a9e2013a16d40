#!/usr/bin/env python3
"""Hard tests of the built program: kills and failed calls, another process, and then a power loss.

    tests/hard_losses.py [PROGRAM [LOOK [HISTORY]]]     only these, or the one history of this name, as a failure prints it, or with
                                                        `all` each fault once; `tests/hard` runs them too, whose helpers they use

A first process is killed at one of its calls, or one of its syncs or writes fails. A second process runs on what the page cache shows,
and power is lost at one of its calls. `hard_power.py` says what the device may hold then; the program and `look check` run on that. What
was printed before the power loss must be there: the tree of files with all their bytes, the completed dumps of each reel, and the tree
that a RESTORE makes. `hard_holes.py` has single cases of the same kind.
"""
import importlib.machinery
import importlib.util
import os
import random
import re
import subprocess
import sys

sys.dont_write_bytecode = True
import hard_power
from hard_power import BLOCK

SECOND = "george.tapes2"
BLOCKS = 2177 + 19
REELS = (1, 2, 3)
MOUNTS = [f"0 MOUNT {k}" for k in REELS]
# How many histories each of the four tests tries at least; at how many calls of a second process power is lost; and how many outcomes
# each power loss has, besides that all is kept and none is.
HISTORIES = 700
LOSSES = 5
OUTCOMES = 3


# ---- scripts, whose files all have contents of their own


def content(name):
    """The bytes of the file of this name, one to three blocks, of BIG nine; no two files have a line in common."""
    lines = (3 + sum(name.encode()) * 7 % 20) * (6 if name == "BIG" else 1)
    return b"".join(b"%s LINE %03d %s\n" % (name.encode(), i, b"X" * 40) for i in range(lines))


def put(when, *names):
    """A job for each file, so that each is acknowledged by itself."""
    jobs = [[f"{when} JOB P,:MASTER,TIME 900", f"INPUT {it}", *content(it).decode().splitlines(), "////", "****"] for it in names]
    return [line for job in jobs for line in job]


def job(when, *lines):
    return [f"{when} JOB J,:MASTER,TIME 9000", *lines, "****"]


def listed(when, names):
    return job(when, *(f"LISTFILE {it}" for it in names))


def migrated(when, names):
    return [f"{when} MIGRATE :MASTER.{it}" for it in names]


def script(*parts):
    return "\n".join([*(line for part in parts for line in part), ""]).encode()


OLD = ["A", "B", "C", "D", "E"]
NEW = ["F", "G", "H", "K"]
LATER = ["P", "Q", "BIG"]
NAMES = OLD + NEW + LATER
# The day before: reel 1 has two dumps, the others are empty. A is only on tape, E only on the disc.
YESTERDAY = script(
    ["0 FORMAT"], MOUNTS, put(0, "A", "B", "C"), ["1000 DUMP 1"], migrated(2000, "A"), put(2000, "D"), ["3000 DUMP 1"], put(4000, "E")
)
# After a call that failed the same process comes up again and takes files off the disc.
AGAIN = script(["9000 START"], migrated(9000, OLD + NEW), put(9000, "K"), ["9500 DUMP 3"])
FIRST = {
    "first day": script(MOUNTS[:2], ["0 FORMAT"], put(0, "A", "B"), ["1000 DUMP 1"], migrated(2000, ["A"]), put(2000, "C")) + AGAIN,
    "commits": script(MOUNTS, ["0 START"], put(0, "F", "G"), job(1000, "ERASE B"), put(2000, "H")) + AGAIN,
    "dump": script(MOUNTS, ["0 START"], put(0, "F"), ["3 DUMP 1"], put(6, "G"), migrated(2000, ["E", "F"]), ["3000 DUMP 2"]) + AGAIN,
    "process": script(MOUNTS, ["0 START"], put(0, "F"), ["1000 PROCESS 2"], put(2000, "G"), ["3000 DUMP 1"]) + AGAIN,
    "restore": script(MOUNTS, ["0 RESTORE"], put(1000, "F"), ["2000 DUMP 2"], put(3000, "G")) + AGAIN,
}
SECOND_RUNS = [
    script(MOUNTS, ["0 START"], listed(0, OLD + NEW), put(100, "P")),
    script(MOUNTS, ["0 START"], migrated(0, OLD + NEW), put(1, "P", "Q"), ["9000 UNMOUNT 1"]),
    script(MOUNTS, ["0 START"], put(1, "BIG"), ["1000 DUMP 3"], put(2000, "P", "Q")),
    script(MOUNTS, ["0 START"], put(0, "P"), ["1000 DUMP 2"], migrated(2000, NAMES), put(2000, "Q")),
    script(MOUNTS, ["0 START"], ["0 PROCESS 3"], ["1000 DUMP 1"], migrated(2000, NAMES)),
    script(MOUNTS, ["0 RESTORE"], put(1, "P"), ["1000 DUMP 3"], migrated(2000, NAMES)),
    script(MOUNTS, ["0 START"], ["0 DUMP 3"], put(3, "P"), ["1000 DUMP 3"], listed(2000, ["A"]), job(2001, "ERASE C")),
    script(["0 MOUNT 1", "0 MOUNT 2", "0 FORMAT"], MOUNTS, ["0 START"], put(1, "P"), ["1000 DUMP 2"], migrated(2000, NAMES)),
]


def last_run(names):
    """The script that shows what there is after a power loss, and then what a RESTORE makes."""
    return script(MOUNTS, ["0 START"], listed(0, names), ["90000 SHUT", "90000 RESTORE"], listed(90001, names))


# ---- what was printed, and what it promises


class Promise:
    """What the text printed so far has acknowledged, at each moment of a story.

    The tree is the one that the cache shows, read from its image; so are the dumps of each reel. A line that is printed while the
    system is up acknowledges both as they are then. What the cache showed since then may be there or not.
    """

    def __init__(self, hard, world):
        self.hard, self.world, self.dumped = hard, world, {}
        self.tree, self.dumps = self.seen_tree(), self.seen_dumps()
        self.trees, self.reels = [self.tree], [self.dumps]
        self.last = max((it for reel in self.dumps.values() for it in reel), default=0)
        self.begin()

    def begin(self):
        """A process begins: the system is down."""
        self.is_up, self.line = False, b""

    def seen_tree(self, gate=None):
        """The names of the files that the cache shows, or would show with this gate; None if there is no filestore."""
        image = self.world.file(self.hard.IMAGE)
        try:
            read = self.hard.directory((gate or image.block(0)) + image.cache[BLOCK:]) if image else None
        except self.hard.NoImage:
            return None
        return read and frozenset(it[1] for it in read[2])

    def seen_dumps(self):
        """The completed dumps that the cache shows, by the names of the reels that have any."""
        folder = self.world.file(self.hard.RACK)
        files = {f"{self.hard.RACK}/{name}": it for name, it in folder.names().items()} if folder else {}
        return dumps_in(self.hard, files, lambda it: bytes(it.cache))

    def see(self, record):
        """Takes in a record that the world has just applied."""
        what, ino, at, written = record
        is_image = what in "WwC" and self.world.nodes[ino] is self.world.file(self.hard.IMAGE)
        if what == "T" and ino == 1:
            *lines, self.line = (self.line + written).split(b"\n")
            for line in lines:
                self.read(line)
        if what in "NR" or (is_image and at == 0):
            # The device may have a gate whose write failed.
            seen = self.seen_tree(written if what == "w" else None)
            self.tree = self.tree if what == "w" else seen
            self.trees.append(seen)
        if what in "NR" or (what in "WC" and not is_image and written[:4] in (b"G3MK", b"", bytes(4))):
            self.dumps = self.seen_dumps()
            self.reels.append(self.dumps)
        elif what == "w" and not is_image and written[:4] == b"G3MK":
            path = self.world.path_of(ino)
            self.reels.append({**self.dumps, path: [*self.dumps.get(path, []), int.from_bytes(written[4:12], "big")]})
        elif what == "W" and not is_image and written[:4] == b"G3HD":
            self.dumped.setdefault(int.from_bytes(written[6:14], "big"), []).append(self.tree)

    def read(self, line):
        if line.endswith(b" SYSTEM STOPPED"):
            self.is_up = False
        elif re.fullmatch(rb"\d+ (STARTED|FORMATTED|RESTORED).*", line):
            self.is_up = True
        if self.is_up:
            self.trees, self.reels = [self.tree], [self.dumps]
            said = re.search(rb"DUMP (\d+) (COMPLETED|ADOPTED|ON \d+)$", line)
            self.last = int(said.group(1)) if said else self.last
        if line.endswith(b" SHUT"):
            self.is_up = False


def dumps_in(hard, files, bytes_of):
    """The numbers of the completed dumps in the first rack of these files, by the reels that have any."""
    reels = {path: bytes_of(it) for path, it in files.items() if re.fullmatch(hard.RACK + r"/\d+\.tape", path)}
    found = {path: [it[0] for it in hard.dumps_on(reel)] for path, reel in reels.items()}
    return {path: it for path, it in found.items() if it}


# ---- stories


class Story:
    """Processes that run one after another in one folder, and what they promise."""

    def __init__(self, hard, files, dumped=()):
        """A folder with these files, all on the device, and the trees of the dumps that were opened before."""
        self.hard = hard
        self.folder = hard.Folder().__enter__()
        put_files(self.folder, files)
        self.world = hard_power.World(self.folder.path)
        self.promise = Promise(hard, self.world)
        self.promise.dumped.update({number: list(trees) for number, trees in dict(dumped).items()})
        self.names = NAMES

    def close(self):
        self.folder.__exit__()

    def recorded(self, lines, fault=None):
        """Runs a process to its end, or to the fault. Returns its records, which aren't applied yet."""
        self.promise.begin()
        to = self.folder.path + ".record"
        self.ended = run(self.hard, self.folder, lines, RECORD=to, **({"FAULT": fault} if fault else {}))
        records = hard_power.records_of(to)
        if records:
            os.remove(to)
        return records

    def apply(self, records):
        for it in records:
            self.world.apply(it)
            self.promise.see(it)

    def run(self, lines, fault=None):
        self.apply(self.recorded(lines, fault))
        return self.ended

    def shows_the_cache(self):
        """Whether the simulated cache is what the real files are."""
        return self.world.shown() == files_of(self.folder)

    def fault_after(self, left):
        """Runs the program and `look check` on what a power loss left: what is wrong there, or None."""
        with self.hard.Folder() as folder:
            put_files(folder, left)
            return Aftermath(self.hard, folder, self.promise, self.names, SECOND in left).fault()


def can_record(hard, what, says_so):
    """Whether the program's calls can be recorded. If not, that what is left out is said in one of several tests."""
    why = "no C compiler"
    if hard.RECORDER:
        story, why = Story(hard, {}), "the library isn't taken"
        if story.recorded(b""):
            why = None
        story.close()
    if why and says_so:
        hard.leave_out(what, why)
    return why is None


def run(hard, folder, lines, **settings):
    """Runs the program with the library: its status, its text, and what went to standard error. It runs as the user of this script,
    since the start of a process is faster so."""
    env = {"LD_PRELOAD": hard.RECORDER, **settings}
    ended = subprocess.run(["george", "run"], executable=hard.PROGRAM, cwd=folder.path, input=lines, capture_output=True, env=env)
    return ended.returncode, ended.stdout, hard.NOTES.sub(b"", ended.stderr)


def put_files(folder, files):
    """Makes files and folders in a new folder."""
    for path, content_of in files.items():
        if content_of is None:
            os.mkdir(folder.at(path))
        else:
            with open(folder.at(path), "wb") as it:
                it.write(content_of)


def files_of(folder):
    """Each path with the bytes of a file, or None for a folder."""
    found = {}
    for place, folders, files in os.walk(folder.path):
        for name in folders + files:
            path = os.path.relpath(os.path.join(place, name), folder.path)
            found[path] = folder.image(path) if name in files else None
    return found


class Aftermath:
    """The program and `look check` on what a power loss left."""

    def __init__(self, hard, folder, promise, names, has_twins):
        self.hard, self.folder, self.promise, self.names, self.has_twins = hard, folder, promise, names, has_twins

    def fault(self):
        """What isn't as it was promised, or None."""
        may_be_absent = None in self.promise.trees
        said = None if may_be_absent or self.has_twins else self.look()
        if said:
            return f"look check at once: {said}"
        status, text, said = run(self.hard, self.folder, last_run(self.names))
        if status != 0 or not (re.fullmatch(rb"(george: .* was rebuilt\n)*", said) if self.has_twins else said == b""):
            return f"status {status}, {said}, {text[-200:]}"
        before, _, after = text.partition(b" SHUT\n")
        return self.fault_in_tree(before) or self.fault_in_reels() or self.fault_in_restored(after or before)

    def fault_in_tree(self, text):
        started = re.search(rb"^0 STARTED.*$", text, re.MULTILINE)
        if not started and b"0 REFUSED 25 NO FILESTORE\n" not in text:
            return f"no start: {text[-300:]}"
        held = shown_by(text)
        tree = frozenset(held) if started else None
        trees = {it if it is None else it & {*self.names} for it in self.promise.trees}
        if tree not in trees:
            return f"the files are {names_in(tree)} and not {' or '.join(map(names_in, trees))}"
        return fault_in(held)

    def fault_in_reels(self):
        files = files_of(self.folder)
        dumps = dumps_in(self.hard, files, bytes)
        if dumps not in self.promise.reels:
            return f"the reels have {dumps} and not {self.promise.reels}"
        racks = [{os.path.basename(it): files[it] for it in files if re.fullmatch(rf"{rack}/\d+\.tape", it)} for rack in (self.hard.RACK, SECOND)]
        return "the twins differ" if self.has_twins and racks[0] != racks[1] else None

    def fault_in_restored(self, text):
        restored = re.search(rb" RESTORED FROM DUMP (\d+)\n", text)
        if not restored:
            return None if b" REFUSED 26 NO DUMP\n" in text and not self.promise.last else f"no restore: {text[:300]}"
        number, held = int(restored.group(1)), shown_by(text)
        trees = [it & {*self.names} for it in self.promise.dumped.get(number, [])]
        if number < self.promise.last or frozenset(held) not in trees:
            return f"dump {number} has {names_in(held)}, and the last one is {self.promise.last}"
        said = self.look()
        return fault_in(held) or (said and f"look check after a restore: {said}")

    def look(self):
        """What `look check` says against disc and reels, or None."""
        if self.hard.LOOK is None:
            return None
        looked = subprocess.run(["look", "check"], executable=self.hard.LOOK, cwd=self.folder.path, capture_output=True)
        return None if looked.stdout.endswith(b"\nBELONGS\n") and looked.returncode == 0 else looked.stdout[-200:] + looked.stderr


def names_in(tree):
    return "no filestore" if tree is None else "".join(sorted(tree)) or "none"


def shown_by(text):
    """The files that LISTFILE printed, each with its bytes, or with the line that says why it has none."""
    held, name = {}, None
    for line in text.split(b"\n"):
        if line.startswith(b"- "):
            name = line[11:].decode() if line.startswith(b"- LISTFILE ") else None
        elif name and line.startswith(b"| "):
            held[name] = held.get(name, b"") + line[2:] + b"\n"
        elif name:
            if not line.startswith((b"LISTED ", b"ERROR 2 NO FILE")):
                held[name] = line
            name = None
    return held


def fault_in(held):
    """The first file that hasn't its own bytes, or None."""
    wrong = [it for it in sorted(held) if held[it] != content(it)]
    return f"file {wrong[0]}: {held[wrong[0]][:80]}" if wrong else None


# ---- many histories


class Sweep:
    """Histories that begin with one kind of process, over one rack or two."""

    def __init__(self, hard, kind, racks):
        self.hard, self.kind, self.racks, self.seen = hard, kind, racks, set()
        self.files, self.dumped = day_before(hard, None if kind == "first day" else YESTERDAY, racks)
        self.first = FIRST[kind]
        whole = Story(hard, self.files)
        self.calls = whole.recorded(self.first)
        whole.close()

    def faults(self):
        """A kill at each call; each sync and each write that fails, by itself or with all later ones of that file. Of the writes of a slot
        only the first."""
        for i, (what, *_) in enumerate(self.calls):
            if i == 0 or not (is_slot_write(self.calls[i - 1]) and is_slot_write(self.calls[i])):
                yield f"kill {i + 1}"
                if what in "WCS":
                    yield f"fail {i + 1}"
                    yield f"full {i + 1}"

    def tried(self, fault, second, some, only=None):
        """Loses power at some calls of the second process: the name of each history, and what is wrong or None. If the second is
        `same`, the first process continues after a call that failed."""
        story = Story(self.hard, self.files, self.dumped)
        records = story.recorded(self.first, fault)
        done = int(fault.split()[1]) if second == "same" else len(records)
        story.apply(records[:done])
        records = records[done:] if second == "same" else story.recorded(SECOND_RUNS[int(second)])
        places = [i for i in range(1, len(records) + 1) if is_moment(records, i)]
        chosen = {*some.sample(places, min(LOSSES, len(places)))} if only is None else {int(only[0])}
        for i in range(len(records) + 1):
            if i in chosen:
                for name, choose in hard_power.outcomes(story.world, some, OUTCOMES, only and only[1]):
                    left = story.world.left(choose)
                    if only or self.is_new(left, story.promise):
                        yield f"{self.racks}/{self.kind}/{fault}/{second}/{i}/{name}", story.fault_after(left)
            story.apply(records[i : i + 1])
        if not story.shows_the_cache():
            yield f"{self.racks}/{self.kind}/{fault}/{second}: the simulated cache", "isn't what the files are"
        story.close()

    def is_new(self, left, promise):
        """Whether this was not tried before."""
        key = key_of(left, promise)
        is_new = key not in self.seen
        self.seen.add(key)
        return is_new


def key_of(left, promise):
    """A number of what a power loss left and what it must be."""
    return hash((*sorted((path, it or b"") for path, it in left.items()), *promise.trees, str(promise.reels), promise.last))


def is_slot_write(record):
    """Whether this is a write of several blocks, as only the slots of an image have them."""
    return record[0] == "W" and len(record[3]) > BLOCK


def is_moment(records, i):
    """Whether a power loss before this call differs from others: the next call is a sync or none, or the last one printed text."""
    return i == len(records) or records[i][0] in "Ss" or records[i - 1][0] in "TS"


def day_before(hard, lines, racks):
    """The files after a day's script, and the trees of its dumps; without a script, those of a new folder."""
    files = {SECOND: None} if racks == 2 else {}
    if lines is None:
        return files, {}
    files.update({hard.IMAGE: bytes(BLOCKS * BLOCK), hard.RACK: None})
    files.update({f"{hard.RACK}/{k}.tape": b"" for k in REELS})
    story = Story(hard, files)
    story.run(lines)
    found = files_of(story.folder), story.promise.dumped
    story.close()
    return found


def repeated(hard, history):
    """Tries the one history of this name again."""
    racks, kind, fault, second, place, name = history.split("/", 5)
    sweep = Sweep(hard, kind, int(racks))
    for what, wrong in sweep.tried(fault, second, random.Random(1), (place, name)):
        hard.check(what, wrong is None, wrong)


def tests(hard, most=HISTORIES):
    """The tests, with the helpers of the program `tests/hard`."""

    def histories(racks, part):
        """Every other fault, in random order, each with one of the second processes, until there are enough histories."""
        if not can_record(hard, "power losses after kills and failed calls", racks + part == 1):
            return
        sweeps = {kind: Sweep(hard, kind, racks) for kind in FIRST}
        faults = [(kind, fault) for kind, sweep in sweeps.items() for fault in sweep.faults()]
        random.Random(racks).shuffle(faults)
        some, count, stories = random.Random(10 * racks + part), 0, 0
        for kind, fault in faults[part::2]:
            if count >= most:
                break
            stories += 1
            rest = ["same"] * (0 if fault.startswith("kill") else 4)
            for what, wrong in sweeps[kind].tried(fault, some.choice([*range(len(SECOND_RUNS)), *rest]), some):
                count += 1
                hard.check(f"power loss {what}", wrong is None, wrong)
        print(f"{count} power losses in {stories} second processes, over {racks} racks")

    return tuple(lambda racks=racks, part=part: histories(racks, part) for racks in (1, 2) for part in (0, 1))


def run_alone(tests_of):
    """Runs these tests with the helpers of `tests/hard`, and ends with their status."""
    beside = os.path.join(os.path.dirname(os.path.realpath(__file__)), "hard")
    loader = importlib.machinery.SourceFileLoader("hard", beside)
    hard = importlib.util.module_from_spec(importlib.util.spec_from_loader("hard", loader))
    sys.modules["hard"] = hard
    loader.exec_module(hard)
    hard.TESTS = tests_of(hard)
    sys.exit(hard.main())


if __name__ == "__main__":
    sys.modules["hard_losses"] = sys.modules[__name__]
    only = (sys.argv[3:] or [None])[0]
    most = 10**9 if only == "all" else HISTORIES
    run_alone(lambda hard: (lambda: repeated(hard, only),) if only not in (None, "all") else tests(hard, most))
