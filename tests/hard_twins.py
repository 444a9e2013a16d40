#!/usr/bin/env python3
"""Hard tests of the built program over two racks, `george.tapes` and `george.tapes2`: what no proof can say of real folders.

    tests/hard_twins.py [PROGRAM]     only these; `tests/hard`, whose helpers they use, runs them too

The folders are compared byte by byte at each end. A file or a folder is deleted, emptied, shortened or changed in one byte before a
start; the program is killed at each call while it makes either twin again; each of its calls for memory and each sync fails then; the
locks are taken in both orders; the second folder is of every wrong kind, and is full in mid-run.
"""
import contextlib
import fcntl
import os
import platform
import random
import shutil
import signal
import subprocess
import sys
import tempfile
import time

SECOND = "george.tapes2"
START = b"0 START\n0 MOUNT 1\n0 JOB B,:MASTER,TIME 10\nLISTFILE F\n****\n"
START_TEXT = (
    b"0 STARTED\n0 TAPE 1 MOUNTED\n0 JOB 1 B IN\nJOB 1 B :MASTER\n- LISTFILE F\n| HELLO\nLISTED :MASTER.F(1/)\nEND 2 UNITS\n"
)
# A dump of a file of 40 blocks behind the file of the other dump.
LONG_LINES = b"".join(b"LINE %04d OF A FILE OF SOME BLOCKS, SO THAT ITS DUMP IS LONGER THAN A PAGE\n" % k for k in range(280))
LONG_SCRIPT = b"0 FORMAT\n0 MOUNT 1\n0 JOB A,:MASTER,TIME 100\nINPUT G\n" + LONG_LINES + b"////\n****\n9 DUMP 1\n"
KILLS_IN_RUNS = 12


def rebuilt(*twins):
    return "".join(f"george: tape {serial}: the {twin} reel was rebuilt\n" for serial, twin in twins).encode()


def lost(serial):
    return f"george: tape {serial}: the second reel is lost\n".encode()


def tests(hard):
    """The tests, with the helpers of the program `tests/hard`."""
    Folder, check, leave_out, check_run = hard.Folder, hard.check, hard.leave_out, hard.check_run
    RACK, BLOCK, IMAGE, DUMP_SCRIPT, DUMP_TEXT = hard.RACK, hard.BLOCK, hard.IMAGE, hard.DUMP_SCRIPT, hard.DUMP_TEXT

    def rack_of(folder, rack):
        """The bytes of each reel in a folder, by its name; names that are no reel's are there too, and fail a comparison."""
        return {name: folder.image(f"{rack}/{name}") for name in os.listdir(folder.at(rack))}

    def racks_of(folder):
        return rack_of(folder, RACK), rack_of(folder, SECOND)

    def check_told(what, got, status, text, told):
        check(what, got == (status, text, told), got)

    def check_same(what, folder, reels=None):
        """Both folders have the same names with the same bytes; those that are given, where any are."""
        first, second = racks_of(folder)
        same = first == second and (reels is None or first == reels)
        check(what, same, {name: (len(first.get(name, b"-")), len(second.get(name, b"-"))) for name in {*first, *second}})

    def give_all(folder):
        for place, folders, files in os.walk(folder.path):
            for name in folders + files:
                folder.give(os.path.join(place, name))

    @contextlib.contextmanager
    def with_pair(script=DUMP_SCRIPT):
        """A folder whose second rack was there from the first run on, behind that run; and how the run ended."""
        with Folder() as folder:
            folder.put_rack({}, SECOND)
            yield folder, folder.run(script)

    @contextlib.contextmanager
    def copy_of(folder):
        """A folder with the same files."""
        with Folder() as copy:
            shutil.copytree(folder.path, copy.path, dirs_exist_ok=True)
            copy.give(copy.path)
            give_all(copy)
            yield copy

    def two_racks():
        """A run over two racks says what it says over one, and leaves the same reels in both."""
        with with_pair() as (folder, ended), Folder() as single:
            check_told("a new second rack", ended, 0, DUMP_TEXT, rebuilt((1, "second"), (2, "second")))
            check_same("both racks hold the dump", folder)
            check_run("the same over one rack", single.run(DUMP_SCRIPT), 0, DUMP_TEXT)
            check("the reels are those of one rack", rack_of(folder, RACK) == rack_of(single, RACK))
            check("the image is that of one rack", folder.image() == single.image())
            before = racks_of(folder)
            check_run("a start over equal racks", folder.run(START), 0, START_TEXT)
            check("nothing of them changes", racks_of(folder) == before)
        with Folder() as folder:
            check_run("first one rack alone", folder.run(DUMP_SCRIPT), 0, DUMP_TEXT)
            folder.put_rack({}, SECOND)
            check_told("then a second folder", folder.run(START), 0, START_TEXT, rebuilt((1, "second"), (2, "second")))
            check_same("has what the first one has", folder)
            check("the rack is one that was never alone", dict(rack_of(folder, RACK)) == rack_of(folder, SECOND))

    def histories():
        """Two racks that have given one number to two dumps are refused before anything is rebuilt; a twin that is only older is rebuilt."""
        with Folder() as folder, Folder() as other:
            check_run("a store", folder.run(DUMP_SCRIPT), 0, DUMP_TEXT)
            check("another store", other.run(LONG_SCRIPT)[0] == 0)
            os.rename(other.at(RACK), folder.at(SECOND))
            before = racks_of(folder), folder.image()
            said = (
                b"george: the two racks have different histories, and one would be lost\n"
                b"george: dump 1 is on reel 1 of george.tapes and on reel 1 of george.tapes2, and isn't the same; move one of the racks away\n"
            )
            check_told("two racks of two stores", folder.run(START), 7, b"", said)
            check("nothing of them changes", (racks_of(folder), folder.image()) == before)
            os.rename(folder.at(RACK), folder.at("first"))
            os.rename(folder.at(SECOND), folder.at(RACK))
            os.rename(folder.at("first"), folder.at(SECOND))
            check("nor the other way round", folder.run(START)[0] == 7)
        with with_pair() as (folder, ended):
            os.rename(folder.at(SECOND), folder.at("away"))
            check("another dump over one rack", folder.run(b"0 START\n0 MOUNT 1\n0 DUMP 1\n")[0] == 0)
            os.rename(folder.at("away"), folder.at(SECOND))
            check_told("the older twin comes back", folder.run(START), 0, START_TEXT, rebuilt((1, "second")))
            check_same("and is rebuilt", folder)

    def damages():
        """What is done to one folder before a start: its words, what does it, and whether the twin is whole again behind it."""

        def cut(blocks):
            return lambda path: os.truncate(path, blocks * BLOCK)

        def change(path):
            with open(path, "r+b") as it:
                it.seek(4 * BLOCK)
                it.write(b"J")

        return (
            ("deleted", os.remove, True),
            ("emptied", cut(0), True),
            ("shortened", cut(5), False),
            ("shortened to a block", cut(1), False),
            ("changed in a byte", change, False),
        )

    def damaged():
        """A file or a folder of either rack is damaged before a start."""
        with with_pair() as (whole, _):
            reels = rack_of(whole, RACK)
            for rack, twin in ((RACK, "first"), (SECOND, "second")):
                for what, damage, comes_back in damages():
                    with copy_of(whole) as folder:
                        damage(folder.at(f"{rack}/1.tape"))
                        # A first reel that holds a block leads, whatever the second holds.
                        leads = rack == RACK and not comes_back
                        wanted = {**reels, "1.tape": folder.image(f"{rack}/1.tape")} if leads else reels
                        # The racks then lack the dump that was cut.
                        warned = hard.warning(b"be refused: 26 NO DUMP", hard.lacks(1)) if leads and len(wanted["1.tape"]) < len(reels["1.tape"]) else b""
                        status, text, told = folder.run(START)
                        seen = (status, text, told)
                        check(f"the {twin} reel {what}: it is told", told == rebuilt((1, "second" if leads else twin)) + warned, seen)
                        check(f"the {twin} reel {what}: the run", status == 0 and (leads or text == START_TEXT), seen)
                        check_same(f"the {twin} reel {what}: the racks", folder, wanted)
                        check_told(f"the {twin} reel {what}: the next start", folder.run(START), status, text, warned)
                with copy_of(whole) as folder:
                    shutil.rmtree(folder.at(rack))
                    if rack == SECOND:
                        check_run("the second folder deleted", folder.run(START), 0, START_TEXT)
                        check("it isn't made", not folder.has(SECOND))
                        folder.put_rack({}, SECOND)
                    told = rebuilt((1, "first")) if rack == RACK else rebuilt((1, "second"), (2, "second"))
                    check_told(f"the {twin} folder deleted", folder.run(START), 0, START_TEXT, told)
                    check_same(f"the {twin} folder deleted: the racks", folder, reels)

    def broken():
        """A reel that can't be used is named with its folder, and all stays; when it is moved away it is rebuilt."""
        long = b"the image or a reel isn't as long as it may be, or there are too many reels"
        kept = b"the image, the rack or a reel may not be read and written"
        cases = [("that is too long", long, lambda path: os.truncate(path, 8193 * BLOCK))]
        if hard.AS_NOBODY or os.geteuid():
            cases.append(("that may not be read", kept, lambda path: os.chmod(path, 0)))
        for rack, twin, other in ((RACK, "first", "second"), (SECOND, "second", "first")):
            for what, cause, damage in cases:
                with with_pair() as (folder, _):
                    reels, path = rack_of(folder, RACK), folder.at(f"{rack}/1.tape")
                    damage(path)
                    before = os.stat(path)
                    told = f"george: tape 1: the cause is the {twin} reel, {rack}/1.tape; if the {other} is whole, move this file away and the next run rebuilds it\n"
                    check_told(f"a {twin} reel {what}", folder.run(START), 7, b"", b"george: " + cause + b"\n" + told.encode())
                    check(f"a {twin} reel {what} stays", (os.stat(path).st_size, os.stat(path).st_mode) == (before.st_size, before.st_mode))
                    os.rename(path, folder.at("away"))
                    check_told(f"a {twin} reel {what}, moved away", folder.run(START), 0, START_TEXT, rebuilt((1, twin)))
                    check_same(f"a {twin} reel {what}, rebuilt", folder, reels)

    def links():
        """A reel that is a link stays one when it is rebuilt, whatever an interrupted start left beside the file that it leads to."""
        for rack, twin in ((RACK, "first"), (SECOND, "second")):
            for left in (None, bytes(7 * BLOCK)):
                with with_pair() as (folder, _):
                    reels, path = rack_of(folder, RACK), folder.at(f"{rack}/1.tape")
                    os.mkdir(folder.at("beside"))
                    folder.give(folder.at("beside"))
                    os.rename(path, folder.at("beside/one"))
                    os.symlink("../beside/one", path)
                    check_run(f"a {twin} reel that is a link", folder.run(START), 0, START_TEXT)
                    os.truncate(folder.at("beside/one"), 0)
                    if left and twin == "first":
                        folder.put(left, "beside/one.new")
                    what = f"a {twin} reel that is a link and is empty" + (", with a piece of another beside it" if left else "")
                    check_told(what, folder.run(START), 0, START_TEXT, rebuilt((1, twin)))
                    check(f"{what}: stays a link", os.path.islink(path) and os.readlink(path) == "../beside/one")
                    check(f"{what}: its folder", os.listdir(folder.at("beside")) == ["one"], os.listdir(folder.at("beside")))
                    check_same(f"{what}: the racks", folder, reels)

    def kinds():
        """Reels of wrong sizes, too many of them, and second folders of every wrong kind: 7, and all stays."""
        for what, first, second in (
            ("a reel that is too long", {}, {"3.tape": 8193 * BLOCK}),
            ("nine and nine reels", {f"{k}.tape": 0 for k in range(1, 10)}, {f"{k}.tape": 0 for k in range(11, 20)}),
        ):
            with Folder() as folder:
                folder.put_rack(first)
                folder.put_rack(second, SECOND)
                before = racks_of(folder)
                check_run(f"two racks with {what}", folder.run(), 7, b"")
                check(f"two racks with {what} stay", racks_of(folder) == before or what != "nine and nine reels")
                kept = all(it in racks_of(folder)[k].items() for k in (0, 1) for it in before[k].items())
                check(f"what is there of {what} stays", kept)
        with Folder() as folder:
            folder.put_rack({f"{k}.tape": 0 for k in range(1, 9)})
            folder.put_rack({f"{k}.tape": 0 for k in range(9, 17)}, SECOND)
            told = rebuilt(*((k, "second" if k < 9 else "first") for k in range(1, 17)))
            check_told("eight and eight reels", folder.run(), 0, hard.FIRST_TEXT, told)
            check_same("each folder has the sixteen", folder, {f"{k}.tape": b"" for k in range(1, 17)})
        for what, make in (
            ("a file", lambda path: open(path, "wb").close()),
            ("a link to nowhere", lambda path: os.symlink("gone/nowhere", path)),
            ("a link to the first", lambda path: os.symlink(RACK, path)),
            ("a pipe", os.mkfifo),
            ("a link to /dev/null", lambda path: os.symlink("/dev/null", path)),
        ):
            with Folder() as folder:
                folder.run(DUMP_SCRIPT)
                make(folder.at(SECOND))
                before = hard.listing(folder)
                check_run(f"a second rack that is {what}", folder.run(START, limit=60), 7, b"")
                check(f"{what} stays, and all else", hard.listing(folder) == before)
        for at in (f"{RACK}/1.tape", f"{SECOND}/1.tape"):
            with Folder() as folder:
                folder.put_rack({"1.tape": BLOCK} if at.startswith(SECOND) else {})
                folder.put_rack({"1.tape": BLOCK} if not at.startswith(SECOND) else {}, SECOND)
                os.symlink("gone/nowhere", folder.at(at))
                before = hard.listing(folder)
                check_run(f"a link to nowhere as {at}", folder.run(), 7, b"")
                after = hard.listing(folder)
                after.pop(IMAGE, None)
                check(f"a link to nowhere as {at} stays", after == before, set(after) ^ set(before))
        with Folder() as folder:
            folder.put_rack({"1.tape": BLOCK})
            folder.put_rack({}, SECOND)
            os.link(folder.at(f"{RACK}/1.tape"), folder.at(f"{SECOND}/1.tape"))
            check_run("one file as both reels", folder.run(), 7, b"")

    def locks():
        """Another run has one of the folders, or a reel of one, whichever of the two it is there."""
        for name in (RACK, SECOND, f"{RACK}/1.tape", f"{SECOND}/1.tape"):
            with with_pair() as (folder, _):
                before = racks_of(folder)
                place = os.open(folder.at(name), os.O_RDONLY)
                fcntl.flock(place, fcntl.LOCK_EX)
                check_run(f"another run has {name}", folder.run(START), 7, b"")
                check(f"all stays while another run has {name}", racks_of(folder) == before)
                os.close(place)
                check_run(f"{name} is free again", folder.run(START), 0, START_TEXT)
        for mine, other in ((RACK, SECOND), (SECOND, RACK)):
            with with_pair() as (folder, _), Folder() as beside:
                beside.put_rack({}, RACK if mine == SECOND else SECOND)
                os.symlink(folder.at(other), beside.at(mine))
                os.chmod(folder.path, 0o755)
                before = racks_of(folder)
                running = folder.start()
                hard.wait_until_read(running)
                check_run(f"another run's {other} as {mine}", beside.run(START), 7, b"")
                text, errors = running.communicate(START[1:], timeout=hard.LIMIT)
                check_run(f"the run that has {other} goes on", (running.returncode, text, errors), 0, START_TEXT)
                check(f"what is in {other} stays", racks_of(folder) == before)

    @contextlib.contextmanager
    def prepared(twin):
        """A folder with a reel of some blocks whose twin has to be made again; and what both racks are behind that."""
        some = random.Random(7)
        blocks = [some.randbytes(BLOCK) for _ in range(6)]
        blocks[5] = b"G3MK" + blocks[5][4:]
        reel = b"".join(blocks)
        with Folder() as folder:
            folder.put_zeros(hard.NEW_BYTES)
            for rack, name in ((RACK, "first"), (SECOND, "second")):
                folder.put_rack({}, rack)
                if name != twin:
                    folder.put(reel, f"{rack}/1.tape")
            # A second reel that is there and differs is made again as one that isn't there.
            if twin == "second":
                folder.put(reel[: 2 * BLOCK] + bytes(BLOCK), f"{SECOND}/1.tape")
            yield folder, {"1.tape": reel}

    def kills_in_rebuilding():
        """A kill at each call while either twin is made again: what the other one holds is there, and the next start makes
        both equal."""
        if platform.machine() != "x86_64":
            leave_out("kills in a rebuilding", "no process can be traced here")
            return
        for twin, other in (("first", SECOND), ("second", RACK)):
            for n in range(1, 2000):
                with prepared(twin) as (folder, reels):
                    folder.put(b"", "script")
                    ended = hard.killed_at_call(folder, n)
                    if ended is None:
                        leave_out("kills in a rebuilding", "no process can be traced here")
                        return
                    held = rack_of(folder, other)
                    check(f"a kill at call {n} leaves the other of the {twin}", held == reels, {it: len(held[it]) for it in held})
                    give_all(folder)
                    status, text, told = folder.run(b"")
                    good = (status, text) == (0, b"") and told in (b"", rebuilt((1, twin)))
                    check(f"a start behind a kill at call {n} of the {twin}", good, (status, text, told))
                    check_same(f"both racks behind a kill at call {n} of the {twin}", folder, reels)
                if ended:
                    print(f"killed at each of {n - 1} calls of a start that makes the {twin} reel again")
                    break

    def kills_in_runs():
        """A kill at a random moment of a run that dumps to both racks: the next start makes them equal, and what the image
        says of them holds."""
        some = random.Random(11)
        for turn in range(KILLS_IN_RUNS):
            with with_pair() as (folder, _):
                running = folder.start()
                try:
                    running.stdin.write(LONG_SCRIPT.replace(b"0 FORMAT\n", b"0 START\n"))
                    running.stdin.close()
                except BrokenPipeError:
                    pass
                time.sleep(some.uniform(0, 0.12))
                running.send_signal(signal.SIGKILL)
                running.wait()
                for it in (running.stdout, running.stderr):
                    it.close()
                dumped = rack_of(folder, RACK)["1.tape"]
                status, text, told = folder.run(b"")
                good = (status, text) == (0, b"") and told in (b"", rebuilt((1, "second")))
                check(f"a start behind kill {turn} of a run over two racks", good, (status, text, told))
                check(f"the first led behind kill {turn}", rack_of(folder, RACK)["1.tape"] == dumped)
                check_same(f"both racks behind kill {turn}", folder)
                status, text, told = folder.run(b"0 MOUNT 1\n0 START\n")
                good = (status, told) == (0, b"") and text.startswith(b"0 TAPE 1 MOUNTED\n0 STARTED")
                check(f"a filestore behind kill {turn}", good, (status, text, told))
                check_same(f"both racks behind the start behind kill {turn}", folder)
                check(f"the files behind kill {turn}", hard.decode(folder.image(), folder.reels()) is not None)

    def failing_calls():
        """Each call for memory and each sync fails while either twin is made again: 5 and nothing is told, or 7, or it doesn't
        hang on it; nothing is lost, and the next start is as ever."""
        if hard.LIBRARY is None:
            leave_out("calls that fail over two racks", "no C compiler")
            return
        for twin, other in (("first", SECOND), ("second", RACK)):
            with prepared(twin) as (folder, reels):
                ended, seen = hard.run_failing(folder, b"")
            if ended != (0, b"", rebuilt((1, twin))) or not seen:
                leave_out("calls that fail over two racks", f"the library isn't taken: {ended} {seen}")
                return
            for how, count, code in (("MEMORY_AT", seen[0], 5), ("SYNC_AT", seen[1], 7)):
                refused = 0
                for n in range(1, count + 1):
                    with prepared(twin) as (folder, reels):
                        (status, text, told), _ = hard.run_failing(folder, b"", **{how: n})
                        told = b"" if status == 7 and hard.is_cause(told) else told or b"nothing" * (status == 7)
                        good = (status, text, told) == (code, b"", b"") or (status, text) == (0 if how == "SYNC_AT" else status, text)
                        good = good and status in (0, code) and text == b"" and told in (b"", rebuilt((1, twin)))
                        refused += status == code
                        check(f"{how} {n} while the {twin} is made again", good, (status, text, told))
                        check(f"what {how} {n} leaves of the other of the {twin}", rack_of(folder, other) == reels)
                        status, text, told = folder.run(b"")
                        check(f"a start behind {how} {n} of the {twin}", (status, text) == (0, b""), (status, text, told))
                        check_same(f"both racks behind {how} {n} of the {twin}", folder, reels)
                check(f"some {how} are needed for the {twin}", refused > 0, (refused, count))

    def torn():
        """A write that STOP TAPE arms tears the first reel alone; the next start makes the second one from it."""
        script = DUMP_SCRIPT.replace(b"0 MOUNT 1\n", b"0 MOUNT 1\n0 STOP TAPE 3\n", 1)
        with with_pair(script) as (folder, ended), Folder() as single:
            one = single.run(script)
            check("an armed write is as over one rack", ended[:2] == one[:2], (ended, one))
            first, second = racks_of(folder)
            check("the first reel is as over one rack", first == rack_of(single, RACK))
            check("the second wasn't written then", len(second["1.tape"]) < len(first["1.tape"]), (len(first["1.tape"]), len(second["1.tape"])))
            check("both stop alike", folder.image() == single.image())
            again, alone = folder.run(START), single.run(START)
            check("behind it a start", again[:2] == alone[:2] and again[2] == rebuilt((1, "second")), (again, alone))
            check_same("both racks behind a torn write", folder, rack_of(single, RACK))

    def full_second():
        """The second folder's device is full in mid-run: the run is as ever, and it is told that a reel is lost."""
        script = (
            'cd "$1/full" && mount -t tmpfs -o size=8k none george.tapes2 && { "$2" run < "$1/script" > "$1/text" 2> "$1/told"; '
            'echo $? > "$1/status"; mount -o remount,size=9m none george.tapes2; "$2" run < "$1/start" > "$1/again" 2> "$1/retold"; '
            'cp -r george.tapes2 "$1/second"; }'
        )
        for way in (["unshare", "--mount"], ["unshare", "--mount", "--map-root-user"]):
            try:
                allowed = subprocess.run([*way, "sh", "-c", "mount -t tmpfs none /mnt"], capture_output=True)
            except OSError:
                break
            if allowed.returncode:
                continue
            with tempfile.TemporaryDirectory(prefix="george-hard-") as room, Folder() as single:
                os.makedirs(f"{room}/full/{SECOND}")
                for name, content in (("script", LONG_SCRIPT), ("start", b"0 START\n0 MOUNT 1\n")):
                    with open(f"{room}/{name}", "wb") as it:
                        it.write(content)
                ran = subprocess.run([*way, "sh", "-c", script, "sh", room, hard.PROGRAM], capture_output=True)
                content = lambda name: open(f"{room}/{name}", "rb").read() if os.path.exists(f"{room}/{name}") else None
                one = single.run(LONG_SCRIPT)
                told = rebuilt((1, "second"), (2, "second")) + lost(1)
                check("a full second device: the run", (content("status"), content("text")) == (b"0\n", one[1]), (content("status"), ran.stderr))
                check("a full second device: what is told", hard.NOTES.sub(b"", content("told") or b"") == told, content("told"))
                check("a full second device: the first reel", content(f"full/{RACK}/1.tape") == single.reels()[1])
                check("with room again it is made again", content("retold") == rebuilt((1, "second")), content("retold"))
                check("with room again both are equal", content("second/1.tape") == single.reels()[1])
            return
        leave_out("a full second device", "no mount is allowed here")

    def begun_again():
        """To begin again over two racks both are moved away, or both are emptied; the manual says so."""
        script, refused = b"0 FORMAT\n", b"0 REFUSED 34 RACK NOT EMPTY 1\n"
        warned = hard.warning(b"be refused: 26 NO DUMP", hard.lacks(1))
        with with_pair() as (whole, _):
            with copy_of(whole) as folder:
                shutil.rmtree(folder.at(RACK))
                status, text, told = folder.run(script)
                check("FORMAT with one rack moved away", (status, text) == (0, refused) and told == rebuilt((1, "first")), (text, told))
            with copy_of(whole) as folder:
                for rack in (RACK, SECOND):
                    shutil.rmtree(folder.at(rack))
                check_told("FORMAT with both racks moved away", folder.run(script), 0, b"0 FORMATTED\n", warned)
            with copy_of(whole) as folder:
                for rack in (RACK, SECOND):
                    os.truncate(folder.at(f"{rack}/1.tape"), 0)
                check_told("FORMAT with both racks emptied", folder.run(script), 0, b"0 FORMATTED\n", warned)
        with open(f"{hard.TOP}/docs/MANUAL.md", encoding="ascii") as it:
            said = [line for line in it if "`george.tapes` away" in line]
        check("the manual says how to begin again", len(said) > 1, said)
        check("and names both racks there", all(SECOND in it or "both" in it for it in said), said)

    def unreadable():
        """A twin that can't be read ends a start with 7, and standard error names its folder and reel."""
        if not hard.hard_losses.can_record(hard, "a twin that can't be read", True):
            return
        for rack in (RACK, SECOND):
            with with_pair() as (folder, _):
                before = racks_of(folder)
                status, text, told = folder.run(START, env={"LD_PRELOAD": hard.RECORDER, "BAD_READ": f"{rack}/1.tape"})
                check(f"a broken reel of {rack}", (status, text) == (7, b"") and f"{rack}/1.tape".encode() in told, (status, text, told))
                check(f"a broken reel of {rack} leaves both racks", racks_of(folder) == before)

    def torn_off():
        """A piece of a block at a reel's end doesn't count: if it ends the first reel of whole blocks both are alike, and a reel that
        has nothing else is rebuilt."""
        for rack, twin in ((RACK, "first"), (SECOND, "second")):
            with with_pair() as (folder, _):
                reels, name = rack_of(folder, RACK), f"{rack}/1.tape"
                folder.put(reels["1.tape"] + bytes(100), name)
                check_told(f"a piece after the {twin} reel", folder.run(START), 0, START_TEXT, b"")
                check_same(f"a piece after the {twin} reel is cut off", folder, reels)
                folder.put(bytes(100), name)
                check_told(f"the {twin} reel is a piece of a block", folder.run(START), 0, START_TEXT, rebuilt((1, twin)))
                check_same(f"the {twin} reel was a piece of a block", folder, reels)

    def rebuilt_in_part():
        """A second reel that differs isn't touched if the first one can't be read to its end, so it can replace it."""
        if not hard.hard_losses.can_record(hard, "a twin that can't be read to its end", True):
            return
        for block in (3, 4, 5):
            with with_pair() as (folder, _):
                reels, path = rack_of(folder, RACK), folder.at(f"{SECOND}/1.tape")
                with open(path, "r+b") as it:
                    it.seek(2 * BLOCK)
                    it.write(b"J")
                before = racks_of(folder)
                bad = {"LD_PRELOAD": hard.RECORDER, "BAD_READ": f"{RACK}/1.tape", "BAD_FROM": str(block * BLOCK)}
                status, text, told = folder.run(START, env=bad)
                good = (status, text) == (7, b"") and f"the cause is the first reel, {RACK}/1.tape; if the second is whole".encode() in told
                check(f"a first reel that can't be read from block {block} on", good, (status, text, told))
                after = racks_of(folder)
                kept = after[0] == before[0] and {**after[1], **before[1]} == after[1]
                check(f"both reels stay, behind block {block}", kept, {it: len(after[1][it]) for it in after[1]})
                check_told(f"the next start behind block {block}", folder.run(b""), 0, b"", rebuilt((1, "second")))
                check_same(f"both racks behind block {block}", folder, reels)

    more = (begun_again, unreadable, torn_off, rebuilt_in_part)
    return (two_racks, histories, damaged, broken, links, kinds, locks, torn, full_second, failing_calls, kills_in_runs, kills_in_rebuilding, *more)


if __name__ == "__main__":
    sys.dont_write_bytecode = True
    import hard_losses

    hard_losses.run_alone(tests)
