#!/usr/bin/env python3
"""What a line costs at the console and in a script, in instructions.

    bench/console.py [--program FILE]

It needs the program as `./run` builds it, or FILE, and valgrind. A session and a run execute the same lines, once a few and once many; the
difference, divided by the number of lines, is the cost of a line, without the start of the program. In the column "pipe" each line is sent
when the line before it is answered; in "file" the lines are standard input as a whole. A line costs at most LIMIT times as much in a pipe as in a
script, otherwise the exit status is 1.
"""
import argparse
import os
import re
import subprocess
import sys
import tempfile

TOP = os.path.dirname(os.path.dirname(os.path.abspath(__file__)))
LIMIT = 1.3
FEW, MANY = 100, 1100
FIRST = ["FORMAT", "LOGIN 1,:MASTER,TIME 1000000"]

# what is typed, again and again
LINES = {
    "DISPLAY at a terminal": ["TYPE 1,DISPLAY X"],
    "LISTDIR at a terminal": ["TYPE 1,LISTDIR"],
    "MOUNT and UNMOUNT": ["MOUNT 1", "UNMOUNT 1"],
    "a JOB that puts a file": ["JOB J,:MASTER,TIME 10", "INPUT F(1)", "X", "////", "****"],
}


def folder():
    path = tempfile.mkdtemp(dir=ROOM)
    os.mkdir(f"{path}/george.tapes")
    open(f"{path}/george.tapes/1.tape", "wb").close()
    return path


def counted(out):
    with open(out, encoding="ascii") as file:
        return int(re.search(r"^(?:summary|totals): (\d+)", file.read(), re.M)[1])


def instructions(words, typed, in_turn):
    """The instructions of a whole process, and what it printed."""
    path = folder()
    out = f"{path}/count"
    command = ["valgrind", "--tool=callgrind", f"--callgrind-out-file={out}", "--quiet", PROGRAM, *words]
    it = subprocess.Popen(command, cwd=path, stdin=subprocess.PIPE, stdout=subprocess.PIPE, stderr=subprocess.DEVNULL, bufsize=0)
    if not in_turn:
        text, _ = it.communicate("".join(f"{line}\n" for line in typed).encode())
        return counted(out), text
    text = b""
    for line in typed:
        it.stdin.write(f"{line}\n".encode())
        text += os.read(it.stdout.fileno(), 65536) if answers(line) else b""
    it.stdin.close()
    text += it.stdout.read()
    it.wait()
    return counted(out), text


def answers(line):
    """Whether a line is answered at once: all but a job's line and its document, up to the line that ends it."""
    return line == "****" or re.match(r"(FORMAT|LOGIN|TYPE|MOUNT|UNMOUNT)\b", line) is not None


def script(typed):
    """The typed lines as a script: each with a time so late that everything before it has ended."""
    lines, time, document = [], 0, False
    for line in typed:
        lines.append(line if document else f"{time} {line}")
        document = line != "****" if document else line.startswith("JOB ")
        time += 0 if document else 2
    return lines


def cost(words, typed, in_turn=False):
    few, _ = instructions(words, typed(FEW), in_turn)
    many, text = instructions(words, typed(MANY), in_turn)
    return (many - few) / (MANY - FEW), text


def table():
    print("| What | Script | File | Pipe | Pipe by script |\n|---|---|---|---|---|")
    worst = 0.0
    for what, lines in LINES.items():
        run, text = cost(["run"], lambda n, lines=lines: script(FIRST + lines * n))
        file, same = cost(["console"], lambda n, lines=lines: FIRST + lines * n)
        pipe, other = cost(["console"], lambda n, lines=lines: FIRST + lines * n, True)
        if not without_ticks(text) == without_ticks(same) == without_ticks(other):
            print(f"{what}: the texts differ", file=sys.stderr)
            return False
        worst = max(worst, pipe / run)
        print(f"| {what} | {run:,.0f} | {file:,.0f} | {pipe:,.0f} | {pipe / run:.2f} |", flush=True)
    print(f"at most {worst:.2f} times a script's line, {LIMIT} are allowed")
    return worst <= LIMIT


def without_ticks(text):
    """The lines without their counts of ticks."""
    return sorted(re.sub(rb"^\d+ ", b"", line) for line in text.splitlines())


def main():
    global PROGRAM, ROOM
    reader = argparse.ArgumentParser()
    reader.add_argument("--program", default=f"{TOP}/crates/george/out/george")
    PROGRAM = os.path.realpath(reader.parse_args().program)
    with tempfile.TemporaryDirectory(prefix="console-bench-") as ROOM:
        return 0 if table() else 1


if __name__ == "__main__":
    sys.exit(main())
