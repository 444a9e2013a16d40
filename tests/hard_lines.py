#!/usr/bin/env python3
"""Hard tests of the built program's lines PROCESS, LOGIN, TYPE and LOGOUT: what no proof can say of real reels and kills.

    tests/hard_lines.py [PROGRAM]     only these; `tests/hard`, whose helpers they use, runs them too

The program is killed at random moments of days in which all files go onto one reel and back, with jobs and dumps between. What is left is
read, started, and restored in a copy. It is killed while two terminals type during a dump: what was reported to them was done. A PROCESS is
interrupted at each write by a file system that is full, and executed on two racks. The order of its writes and syncs on disc and reels is
checked.
"""
import os
import random
import shutil
import subprocess
import sys
import tempfile
import time

KILLS_IN_PROCESSES = 40
KILLS_AT_TERMINALS = 40
NAMES = [f"F{k}" for k in range(16)]
MOUNTS = "".join(f"0 MOUNT {k}\n" for k in (1, 2, 3))
START = f"{MOUNTS}0 START\n".encode()
RESTORE = f"{MOUNTS}0 RESTORE\n".encode()
# Two files of a block each: one is dumped and off the disc, the other on the disc alone.
TWO_FILES = (
    b"0 FORMAT\n0 MOUNT 1\n0 MOUNT 2\n0 JOB A,:MASTER,TIME 10\nINPUT F\nHELLO\n////\n****\n9 DUMP 1\n20 MIGRATE :MASTER.F\n"
    b"20 JOB B,:MASTER,TIME 10\nINPUT G\nWORLD\n////\n****\n"
)
TWO_HELD = [("F", 1, b"HELLO\n"), ("G", 1, b"WORLD\n")]


class Day:
    """A day's script, the files behind each of its events, and those of each of its four dumps."""

    def __init__(self, some, turn, files, target, others):
        self.random, self.turn, self.files = some, turn, dict(files)
        self.states, self.dumped = [dict(files)], []
        self.lines = [*START.decode().splitlines()]
        one, other = others
        self.job(1000)
        self.dump(f"2000 PROCESS {target}")
        self.job(3000)
        self.dump(f"4000 DUMP {one}")
        self.migrate(5000)
        self.dump(f"6000 PROCESS {other}")
        self.job(7000)
        self.dump(f"8000 DUMP {one}")
        self.migrate(9000)

    def job(self, when):
        self.lines.append(f"{when} JOB P,:MASTER,TIME 900")
        for name in self.random.sample(NAMES, 4):
            line = f"{self.turn} {when} " + "X" * 60
            content = f"{line}\n" * self.random.randrange(1, 120)
            self.lines += [f"INPUT {name}(1)", *content.splitlines(), "////"]
            self.files[name] = content.encode()
            self.states.append(dict(self.files))
        self.lines.append("****")

    def dump(self, line):
        self.lines.append(line)
        self.dumped.append(dict(self.files))

    def migrate(self, when):
        self.lines += [f"{when} MIGRATE :MASTER.{name}" for name in self.random.sample(NAMES, 8)]

    def script(self):
        return "\n".join([*self.lines, ""]).encode()


def taken(hard, folder):
    """The reels with a completed dump."""
    return {serial for serial, reel in folder.reels().items() if hard.dumps_on(reel)}


def free_a_reel(hard, folder):
    """Where every reel has a dump, one that isn't the last dump's is taken away, and an empty one comes in its place."""
    if len(taken(hard, folder)) == 3:
        newest = hard.newest(folder)
        spare = min(k for k, reel in folder.reels().items() if newest not in [it[0] for it in hard.dumps_on(reel)])
        with open(folder.at(f"{hard.RACK}/{spare}.tape"), "wb"):
            pass


def next_day(hard, folder, some, turn, files):
    """A day on the reels as they are: all goes onto one without a dump, then onto another."""
    target = some.choice(sorted({1, 2, 3} - taken(hard, folder)))
    return Day(some, turn, files, target, some.sample(sorted({1, 2, 3} - {target}), 2))


def tests(hard):
    """The tests, with the helpers of the program `tests/hard`."""
    Folder, check, leave_out, check_run = hard.Folder, hard.check, hard.leave_out, hard.check_run
    RACK, BLOCK, IMAGE = hard.RACK, hard.BLOCK, hard.IMAGE

    def copies_lie(folder):
        """The files that are on disc and tape with other bytes there."""
        image, reels = folder.image(), folder.reels()
        both = [(it[1], it[4], it[5], it[6]) for it in hard.directory(image)[2] if it[5] and it[6]]
        block = lambda bytes, k: bytes[k * BLOCK : (k + 1) * BLOCK]
        on_disc = lambda blocks: b"".join(block(image, k) for k in blocks)
        on_tape = lambda copy, count: b"".join(block(reels[copy[0]], copy[1] + i) for i in range(count))
        return [name for name, length, copy, blocks in both if on_disc(blocks)[:length] != on_tape(copy, len(blocks))[:length]]

    def run_and_kill(folder, script, whole):
        """Runs a script and kills it at a random moment of a whole run's time; to its end where that isn't known. How long it took."""
        with open(folder.at("script"), "wb") as it:
            it.write(script)
        with open(folder.at("script"), "rb") as it:
            began = time.monotonic()
            started = folder.start(stdin=it)
            if whole is not None:
                time.sleep(random.random() * whole * 1.1)
                started.kill()
            text, errors = started.communicate(timeout=hard.LIMIT)
        return text, errors, time.monotonic() - began

    def restored_beside(folder):
        """What a restore makes of a copy of the reels, and what it told."""
        with Folder() as beside:
            shutil.copytree(folder.at(RACK), beside.at(RACK))
            beside.give(beside.at(RACK))
            for name in os.listdir(beside.at(RACK)):
                beside.give(beside.at(f"{RACK}/{name}"))
            ended = beside.run(RESTORE)
            return (hard.held_by_name(beside) if b" RESTORED " in ended[1] else None), ended

    def kills_in_processes():
        """Behind a kill in a PROCESS, or in the jobs and dumps around it, the files are those of a front of the script's events,
        each on the disc or where it is named on a reel. The next start has them; a restore has those of the last dump."""
        some, whole, adopted, moved, dumped = random.Random(11), None, 0, 0, {}
        with Folder() as folder:
            folder.put_rack({f"{k}.tape": 0 for k in (1, 2, 3)})
            folder.run(b"0 FORMAT\n")
            files, last = {}, 0
            for turn in range(KILLS_IN_PROCESSES + 1):
                day = next_day(hard, folder, some, turn, files)
                dumped.update({last + 1 + k: it for k, it in enumerate(day.dumped)})
                text, errors, took = run_and_kill(folder, day.script(), whole)
                whole = whole or took
                what = f"killed process {turn}"
                try:
                    files = hard.held_by_name(folder)
                except (hard.NoImage, KeyError, TypeError) as fault:
                    check(what, False, fault)
                    return
                last = hard.newest(folder)
                told = {int(it.split()[3]) for it in text.splitlines() if b" PROCESSED " in it and it.endswith((b" 1", b" 2", b" 3"))}
                moved += len(told)
                ended = turn > 0 or (files == day.states[-1] and len(told) == 2)
                check(what, files in day.states and max(told, default=0) <= last and ended and errors == b"", f"{last} {text[-200:]!r}")
                check(f"{what}: copies", copies_lie(folder) == [], copies_lie(folder))
                restored, run = restored_beside(folder)
                check(f"a restore behind {what}", restored == dumped.get(last) and (last == 0) == (b" 26 NO DUMP" in run[1]), (last, run[1]))
                run = folder.run(START)
                adopted += b" ADOPTED" in run[1]
                check(f"a start behind {what}", run[0] == 0 and b"0 STARTED" in run[1] and hard.held_by_name(folder) == files, run)
                check(f"{what}: copies behind a start", copies_lie(folder) == [], copies_lie(folder))
                last = hard.newest(folder)
                free_a_reel(hard, folder)
            print(f"killed {KILLS_IN_PROCESSES} days with processes, in runs of {whole:.3f} s; {moved} were told, {adopted} dumps were taken over")

    def typed(turn, count):
        """A script in which two terminals put files while a dump goes on, and then another."""
        lines = ["0 MOUNT 1", "0 MOUNT 2", "0 START", "0 LOGIN 1,:MASTER,TIME 900", "0 LOGIN 2,:MASTER,TIME 900", f"1 DUMP {1 + turn % 2}"]
        files = {1: [], 2: []}
        for i in range(count):
            for t in (1, 2):
                name, text = f"T{t}-{i}", f"{turn} {t} {i} " + "Y" * (i * 37 % 90)
                lines += [f"{2 + i} TYPE {t},INPUT {name}(1)", f"{2 + i} TYPE {t},{text}", f"{3 + i} TYPE {t},////"]
                files[t].append((name, f"{text}\n".encode()))
            if i == count // 2:
                lines.append(f"{2 + i} LOGIN 1,:MASTER,TIME 1")
        return "\n".join([*lines, f"{9 + count} LOGOUT 1", f"{9 + count} LOGOUT 2", ""]).encode(), files

    def kills_at_terminals():
        """Behind a kill while two terminals type beside a dump each has put a front of its files, at least those that it was told of."""
        count, whole, fronts = 30, None, set()
        with Folder() as folder:
            folder.run(b"0 FORMAT\n")
            left = {}
            for turn in range(KILLS_AT_TERMINALS + 1):
                script, files = typed(turn, count)
                text, errors, took = run_and_kill(folder, script, whole)
                whole = whole or took
                what = f"killed terminals {turn}"
                try:
                    held = hard.held_by_name(folder)
                except (hard.NoImage, KeyError, TypeError) as fault:
                    check(what, False, fault)
                    return
                for t in (1, 2):
                    made = len([it for it in text.splitlines() if it.startswith(b"T%d MADE " % t)])
                    fits = [k for k in range(made, count + 1) if all(held.get(n) == (c if i < k else left.get(n)) for i, (n, c) in enumerate(files[t]))]
                    check(f"{what}: terminal {t}", fits and errors == b"" and (turn > 0 or fits == [count]), (made, fits, text[-200:]))
                    fronts.update(fits[:1])
                left = held
                run = folder.run(b"0 MOUNT 1\n0 MOUNT 2\n0 START\n0 TYPE 1,LOST\n0 LOGIN 1,:MASTER,TIME 9\n")
                told = b"0 REFUSED 44 NO TERMINAL 1\n0 JOB 1 MOP1 IN\nT1 JOB 1 MOP1 :MASTER\nT1 WAITING LINE\n"
                check(f"a start behind {what}", run[0] == 0 and run[1].endswith(told) and hard.held_by_name(folder) == held, run)
                if turn % 10 == 9:
                    # The reels are begun anew, so that they don't fill up.
                    shutil.rmtree(folder.at(RACK))
                    os.remove(folder.at(IMAGE))
                    folder.run(b"0 FORMAT\n")
                    left = {}
            print(f"killed {KILLS_AT_TERMINALS} times at terminals, in runs of {whole:.3f} s; {len(fronts)} different fronts were left")

    def order_of_process():
        """The mark of the new dump is on the device before the disc names its copies, and the disc's gate before a reel is released."""
        with Folder() as folder:
            folder.run(TWO_FILES)
            with open(folder.at("script"), "wb") as it:
                it.write(b"0 MOUNT 1\n0 MOUNT 2\n0 START\n0 PROCESS 2\n")
            calls = hard.traced(folder, hard.PROGRAM, "run")
            if calls is None:
                leave_out("the order of a PROCESS", "no process can be traced here")
                return
            short = {IMAGE: "disc", "1.tape": "1", "2.tape": "2"}
            named = [(short[os.path.basename(path)], call, k, count) for call, path, k, count in calls if os.path.basename(path) in short]
            seen = [(name, call, k + i) for name, call, k, count in named for i in range(max(count, 1))]
            at = lambda name, call, k: max(i for i, it in enumerate(seen) if it == (name, call, k))
            mark, gate, release = at("2", hard.PWRITE, 7), at("disc", hard.PWRITE, 0), at("1", hard.PWRITE, 0)
            syncs = lambda name, first, end: ("%s" % name, hard.FDATASYNC, 0) in seen[first:end]
            check("the dump has eight blocks", len(folder.reels()[2]) == 8 * BLOCK)
            check("the reel is synced before its mark", syncs("2", at("2", hard.PWRITE, 6), mark), seen)
            check("and behind it, before the gate", mark < gate and syncs("2", mark, gate), seen)
            check("the slot is synced before the gate", syncs("disc", mark, gate), seen)
            check("and the gate before the release", gate < release and syncs("disc", gate, release), seen)
            check("the released reel has one block of zeros", folder.reels()[1] == bytes(BLOCK))
            check("both files are on the new reel", folder.holds(TWO_HELD) and copies_lie(folder) == [])

    def over_two_racks():
        """A PROCESS writes and releases the reels of both racks; with the new dump's reel lost from one, all files are there."""
        with Folder() as folder, Folder() as single:
            second = "george.tapes2"
            os.mkdir(folder.at(second))
            folder.give(folder.at(second))
            one, two = (it.run(TWO_FILES + b"900 PROCESS 2\n") for it in (single, folder))
            check("a PROCESS over two racks prints the same", one[:2] == two[:2] and one[1].endswith(b" PROCESSED DUMP 2 ON 2\n"), two)
            reels = [{name: folder.image(f"{rack}/{name}") for name in os.listdir(folder.at(rack))} for rack in (RACK, second)]
            alone = {f"{k}.tape": reel for k, reel in single.reels().items()}
            check("and leaves both as one", reels == [alone, alone], [{k: len(it) for k, it in rack.items()} for rack in reels])
            os.remove(folder.at(f"{RACK}/2.tape"))
            again = folder.run(START + b"0 JOB C,:MASTER,TIME 9\nLISTFILE F\nLISTFILE G\n****\n")
            told = b"george: tape 2: the first reel was rebuilt\n"
            check("a lost reel of a PROCESS", b"| HELLO\n" in again[1] and b"| WORLD\n" in again[1] and again[2] == told, again)

    def full_in_process():
        """A file system that is full in mid-PROCESS stops the system: the files are as they were, and with room it is done."""
        script = (
            'mount -t tmpfs -o size=9m none "$1/full" && cp -r --sparse=always "$1/before/." "$1/full" && cd "$1/full" && '
            'used=$(df -k --output=used . | tail -1) && mount -o remount,size=$((used + $3))k none "$1/full" && '
            '{ "$2" run < "$1/script" > "$1/text"; echo $? > "$1/status"; cp -r --sparse=always . "$1/left"; '
            'mount -o remount,size=9m none "$1/full"; "$2" run < "$1/again" > "$1/retold"; cp -r --sparse=always . "$1/behind"; }'
        )
        for way in (["unshare", "--mount"], ["unshare", "--mount", "--map-root-user"]):
            try:
                allowed = subprocess.run([*way, "sh", "-c", "mount -t tmpfs none /mnt"], capture_output=True)
            except OSError:
                break
            if allowed.returncode:
                continue
            stopped = 0
            for spare in (0, 4, 8, 12, 16, 20, 24):
                with tempfile.TemporaryDirectory(prefix="george-hard-") as room, Folder() as folder:
                    folder.run(TWO_FILES.replace(b"WORLD", b"\n".join([b"WORLD" * 20] * 80)))
                    held = hard.decode(folder.image(), folder.reels())
                    shutil.copytree(folder.path, f"{room}/before")
                    os.mkdir(f"{room}/full")
                    for name, content in (("script", START + b"0 PROCESS 2\n"), ("again", START + b"0 PROCESS 2\n0 SHUT\n" + RESTORE)):
                        with open(f"{room}/{name}", "wb") as it:
                            it.write(content)
                    ran = subprocess.run([*way, "sh", "-c", script, "sh", room, hard.PROGRAM, str(spare)], capture_output=True)

                    def content(name):
                        with open(f"{room}/{name}", "rb") as it:
                            return it.read()

                    def files(place):
                        reels = {k: content(f"{place}/{RACK}/{k}.tape") for k in (1, 2)}
                        return hard.decode(content(f"{place}/{IMAGE}"), reels), [hard.dumps_on(reels[k]) for k in (1, 2)]

                    try:
                        text, status = content("text"), content("status")
                        left, (first, second) = files("left")
                        behind, dumps = files("behind")
                    except (FileNotFoundError, hard.NoImage, KeyError) as fault:
                        check(f"a PROCESS with {spare} KiB", False, (fault, ran.stderr))
                        continue
                    cut = text.endswith(b"0 SYSTEM STOPPED\n")
                    stopped += cut
                    good = cut or text.endswith(b" ON 2\n")
                    check(f"a PROCESS with {spare} KiB", status == b"0\n" and good, (status, text, ran.stderr))
                    check(f"the files with {spare} KiB", left == held and (first or second), (text, first, second))
                    check(f"with more room than {spare} KiB", behind == held and len(dumps[1]) == 1, (content("retold"), dumps))
            check("some PROCESS was cut off by a full file system", stopped > 0)
            return
        leave_out("a full file system in a PROCESS", "no mount is allowed here")

    return (order_of_process, over_two_racks, full_in_process, kills_in_processes, kills_at_terminals)


if __name__ == "__main__":
    sys.dont_write_bytecode = True
    import hard_losses

    hard_losses.run_alone(tests)
