#!/usr/bin/env python3
"""Hard tests of the built program: single cases of what a kill, a failed call and then a power loss must not take away.

    tests/hard_holes.py [PROGRAM [LOOK [CASE]]]     only these, or the one case of this name, as a failure prints it; `tests/hard`
                                                    runs them too, whose helpers they use

`hard_losses.py` tries many such histories at random. Each of these cases was lost once. It is tried at each moment of the process that
runs last, with all that no sync has brought kept or lost, and with each file of it lost by itself.
"""
import sys

sys.dont_write_bytecode = True
import hard_losses
import hard_power
from hard_losses import MOUNTS, SECOND, Story, job, listed, migrated, put, script
from hard_power import BLOCK

MARK = b"G3MK"
FORMAT = script(MOUNTS, ["0 FORMAT"], put(0, "A", "B"))
START = script(MOUNTS, ["0 START"])
DUMP = START + script(["0 DUMP 1"])
DUMPED = FORMAT + script(["100 DUMP 1"], migrated(200, ["B"]))
AGAIN = script(["900 START"], migrated(900, ["A", "B"]), put(900, "P"))


class Case:
    """A story that begins after a day's script: a process that goes wrong at one call, and what runs then."""

    def __init__(self, hard, day=FORMAT, racks=1):
        self.hard, self.story = hard, None
        self.begin(*hard_losses.day_before(hard, day, racks))

    def begin(self, files, dumped=None, names=hard_losses.NAMES):
        """Begins from these files, all on the device; in the end only files of these names are read."""
        if self.story:
            dumped = self.story.promise.dumped if dumped is None else dumped
            self.story.close()
        self.story = Story(self.hard, files, dumped)
        self.story.names = names

    def __enter__(self):
        return self

    def __exit__(self, *_):
        self.story.close()

    def calls(self, lines):
        """The calls that a process would do: what each does, the path, the block, and the bytes."""
        copy, calls = Story(self.hard, hard_losses.files_of(self.story.folder)), []
        for record in copy.recorded(lines):
            copy.world.apply(record)
            calls.append((record[0], copy.world.path_of(record[1]), record[2] // BLOCK, record[3]))
        copy.close()
        return calls

    def goes_wrong(self, how, lines, is_call):
        """Runs a process with a fault at the first call for which this holds. Its later calls wait."""
        calls = self.calls(lines)
        at = next((i for i in range(len(calls)) if is_call(calls, i)), None)
        if at is None:
            raise LookupError("no such call")
        records = self.story.recorded(lines, f"{how} {at + 1}")
        self.story.apply(records[: at + 1])
        self.waiting = records[at + 1 :]
        return self

    def runs(self, lines):
        """Runs another process, whose calls wait."""
        self.waiting = self.story.recorded(lines)
        return self

    def finish(self):
        """Does the calls that wait."""
        self.story.apply(self.waiting)

    def lost(self, *choices):
        """Loses power at each moment of the calls that wait: what is lost, or None."""
        seen, story = set(), self.story
        for i in range(len(self.waiting) + 1):
            if i == 0 or hard_losses.is_moment(self.waiting, i):
                for name, choose in [*outcomes(story.world), *choices]:
                    left = story.world.left(choose)
                    key = hard_losses.key_of(left, story.promise)
                    fault = None if key in seen else story.fault_after(left)
                    seen.add(key)
                    if fault:
                        return f"before call {i + 1}, {name}: {fault}"
            story.apply(self.waiting[i : i + 1])
        return None


def outcomes(world):
    """All kept, none kept, and each file lost."""
    yield "all kept", hard_power.newest
    yield "none kept", hard_power.oldest
    for node in {id(node): node for node, _ in world.unsure_blocks()}.values():
        yield f"a {type(node).__name__.lower()} lost", hard_power.file_lost(node)


def is_call(what, path, block=None, written=b""):
    """Whether a call does this to the file of this path."""
    return lambda calls, i: calls[i][:2] == (what, path) and block in (None, calls[i][2]) and calls[i][3].startswith(written)


def is_after(first, then):
    """A call for which the second holds, after one for which the first did."""
    return lambda calls, i: then(calls, i) and any(first(calls, k) for k in range(i))


def shortest(node):
    """The newest of all, but the shortest length of one file."""
    return lambda it, what, versions: min(versions) if it is node and what == "length" else versions[-1]


def cases(hard):
    """The cases by their names: each tells what is lost, or None."""
    IMAGE, REEL, TWIN = hard.IMAGE, f"{hard.RACK}/1.tape", f"{SECOND}/1.tape"
    after_mark = is_after(is_call("W", REEL, None, MARK), is_call("S", REEL))
    # The first gate that is written after a slot; START may have rewritten the one that it found.
    gate = is_after(is_call("W", IMAGE, 1), is_call("W", IMAGE, 0))
    after_gate = is_after(gate, is_call("S", IMAGE))

    def adopted(how, racks, serial=1):
        """START adopts a dump only if its mark outlives a power loss."""
        reel = f"{hard.RACK}/{serial}.tape"
        with Case(hard, FORMAT, racks) as case:
            after = is_after(is_call("W", reel, None, MARK), is_call("S", reel))
            case.goes_wrong(how, START + script([f"0 DUMP {serial}"]) + AGAIN, after)
            return (case.runs(START + AGAIN) if how == "kill" else case).lost()

    def restored():
        """RESTORE takes a dump only if its mark outlives a power loss."""
        with Case(hard) as case:
            return case.goes_wrong("kill", DUMP, after_mark).runs(script(MOUNTS, ["0 RESTORE"], put(1, "P"))).lost()

    def believed(how):
        """START shows the tree of a commit only if its gate outlives a power loss."""
        with Case(hard) as case:
            shown = listed(900, ["A", "P"])
            case.goes_wrong(how, START + script(put(1, "P"), ["900 START"], shown), after_gate)
            return (case.runs(START + script(shown)) if how == "kill" else case).lost()

    def forged():
        """A file holds what would be the mark of the next dump, where a dump that was given up wrote it, after the next one's blocks."""
        with Case(hard, script(MOUNTS, ["0 FORMAT"], put(0, "A", "B", "G"))) as case:
            image = bytearray(case.story.folder.image())
            k = hard.directory(bytes(image))[2][2][6][1]
            image[k * BLOCK : (k + 1) * BLOCK] = MARK + number(1, 8) + number(0, 4) + number(9, 4) + bytes(488) + number(9, 4)
            case.begin({**hard_losses.files_of(case.story.folder), IMAGE: bytes(image)}, names=["A", "B"])
            # Dump 1 has 13 blocks, this one its block 10. Without B it has 11, and its mark is due there.
            case.goes_wrong("kill", DUMP, is_call("W", REEL, 12))
            case.runs(START + script(job(0, "ERASE B"), ["900 DUMP 1"]))
            return case.lost(("the old length", hard_power.one_lost(case.story.world.file(REEL), "length")))

    def released(racks):
        """A reel that PROCESS released doesn't come back, nor with blocks of its next dump between its old header and mark."""
        with Case(hard, DUMPED, racks) as case:
            case.runs(START + script(["0 PROCESS 2"], put(1, "P"), ["900 DUMP 1"]))
            old = {"length", 0, case.story.world.file(REEL).blocks() - 1}
            return case.lost(("old ends", lambda it, what, versions: versions[0 if what in old else -1]))

    def numbered():
        """A mark whose write failed may be there; the next dump has the same number."""
        with Case(hard) as case:
            case.goes_wrong("full", DUMP, is_call("W", REEL, None, MARK))
            case.finish()
            return case.runs(START + script(put(0, "P"), ["0 DUMP 2"])).lost()

    def cut_short(mounts):
        """A release that was killed after it truncated its reel: the next START decides what the reel holds."""
        with Case(hard, DUMPED) as case:
            case.goes_wrong("kill", START + script(["0 PROCESS 2"]), is_after(is_call("C", REEL, 0), lambda calls, i: True))
            return case.runs(script(mounts, ["0 START"], put(0, "P"))).lost()

    def cut_unsynced(how):
        """A release whose truncation wasn't synced, since that sync failed: the next START decides what the reel holds."""
        with Case(hard, DUMPED) as case:
            after_cut = is_after(is_call("C", REEL, 0), is_call("S", REEL))
            again = script(["900 START"], put(900, "P"))
            case.goes_wrong("fail", START + script(["0 PROCESS 2"]) + (again if how == "same" else b""), after_cut)
            if how == "same":
                return case.lost()
            case.finish()
            return case.runs(START + again).lost()

    def released_first():
        """PROCESS releases a reel whose second twin is lost: the dumps of the second don't come back."""
        with Case(hard, DUMPED, 2) as case:
            case.goes_wrong("full", START + script(["0 PROCESS 2"], put(1, "P")), lambda calls, i: calls[i][1] == TWIN and calls[i][0] in "CW")
            return case.lost(("shortest", shortest(case.story.world.file(REEL))))

    def renamed_image():
        """A new image whose name isn't on the device yet."""
        with Case(hard, None) as case:
            case.begin({hard.RACK: None, REEL: b""})
            case.goes_wrong("kill", b"", is_after(is_call("R", IMAGE), is_call("S", ".")))
            return case.runs(script(["0 FORMAT"], put(0, "A"))).lost()

    def renamed_rack():
        """A new rack whose name isn't on the device yet."""
        with Case(hard, None) as case:
            case.goes_wrong("kill", b"", is_after(is_call("R", hard.RACK), is_call("S", ".")))
            return case.runs(FORMAT + script(["900 DUMP 1"], migrated(900, ["A"]))).lost()

    def renamed_twin():
        """A first twin that was rebuilt and whose name isn't on the device yet; the second twin is lost in the next run."""
        with Case(hard, DUMPED, 2) as case:
            files = hard_losses.files_of(case.story.folder)
            del files[REEL]
            case.begin(files)
            case.goes_wrong("kill", b"", is_after(is_call("R", REEL), is_call("S", hard.RACK)))
            case.goes_wrong("full", START + script(put(0, "P"), ["900 DUMP 1"], migrated(900, ["P"])), is_call("W", TWIN))
            return case.lost()

    def without_mark():
        """A dump whose second twin has no mark is adopted: the run reports that twin as lost, or both have it. Then the first is lost."""
        with Case(hard, FORMAT, 2) as case:
            case.goes_wrong("fail", DUMP + AGAIN, after_mark)
            case.finish()
            status, text, errors = case.story.ended
            files = hard_losses.files_of(case.story.folder)
            if b" ADOPTED" not in text or files[REEL] == files[TWIN]:
                return None if status == 0 else (status, text, errors)
            return None if b"george: tape 1: the second reel is lost\n" in errors else f"the twins differ, and standard error has {errors}"

    def unsecured():
        """START can't make a second twin durable: the run reports it as lost."""
        with Case(hard, DUMPED, 2) as case:
            case.goes_wrong("full", START + script(put(0, "P")), lambda calls, i: calls[i][1] == TWIN and calls[i][0] in "WS")
            status, text, errors = case.story.ended
            good = status == 0 and b"0 STARTED\n" in text and b"george: tape 1: the second reel is lost\n" in errors
            return None if good else (status, text, errors)

    return {
        "a dump killed after its mark was written": lambda: adopted("kill", 1),
        "a dump killed after its mark was written, on the last reel": lambda: adopted("kill", 1, 3),
        "a second twin that can't be made durable": unsecured,
        "a dump whose mark's sync failed": lambda: adopted("fail", 1),
        "a dump whose mark's sync failed, over two racks": lambda: adopted("fail", 2),
        "a dump whose second twin has no mark": without_mark,
        "a dump whose device is full after its mark": lambda: adopted("full", 1),
        "a dump whose device is full after its mark, over two racks": lambda: adopted("full", 2),
        "a restore of a dump killed after its mark was written": restored,
        "a start after a kill between a gate and its sync": lambda: believed("kill"),
        "a start after a gate whose sync failed": lambda: believed("fail"),
        "a file that holds the mark of a dump": forged,
        "a reel that was released": lambda: released(1),
        "a reel that was released, over two racks": lambda: released(2),
        "two dumps of one number": numbered,
        "a release killed between its cut and its block": lambda: cut_short(MOUNTS),
        "a release killed between its cut and its block, of a reel that isn't mounted": lambda: cut_short(["0 MOUNT 2"]),
        "a release whose cut isn't synced": lambda: cut_unsynced("same"),
        "a release whose cut isn't synced, and the next run": lambda: cut_unsynced("next"),
        "a release of a reel whose second twin is lost": released_first,
        "the name of a new image": renamed_image,
        "the name of a new rack": renamed_rack,
        "the name of a rebuilt twin": renamed_twin,
    }


def number(value, count):
    return value.to_bytes(count, "big")


def tests(hard, only=None):
    """The tests, with the helpers of the program `tests/hard`: the cases in four parts, or the one of this name."""

    def part(first):
        if not hard_losses.can_record(hard, "single cases of power losses", first == 0):
            return
        for name, case in [*cases(hard).items()][first::4]:
            if only in (None, name):
                try:
                    wrong = case()
                except LookupError as fault:
                    wrong = fault
                hard.check(name, wrong is None, wrong)

    return tuple(lambda first=first: part(first) for first in range(4))


if __name__ == "__main__":
    hard_losses.run_alone(lambda hard: tests(hard, (sys.argv[3:] or [None])[0]))
