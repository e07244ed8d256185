#!/usr/bin/env python3
"""Long runs of the native program: its memory stays flat, and each answer is right.

usage: bench/soak.py [PROGRAM]

1,000 periods of 64 processors, 1,000,000 lines, 100,000 periods of one processor. About a minute
with little else running. A part that does not end within ten minutes is killed and fails.
"""
import os
import subprocess
import sys
import threading
import time

TOP = os.path.dirname(os.path.dirname(os.path.abspath(__file__)))
PROGRAM = os.path.abspath(sys.argv[1]) if len(sys.argv) > 1 else f"{TOP}/crates/arbiter/out/arbiter"
PART_SECONDS = 600
# How much more may be resident at the end than after the first tenth.
GROWTH_KIB = 512

TREE = b"""mkdir pod
mkdir pod/x
mkdir pod/y
mkdir job
write pod cpu.max 50000 100000
write pod cpu.max.burst 25000
write pod/y cpu.weight 300
demand pod/x 20
demand pod/y 20
demand job 1000000
"""
LINES = b"""mkdir a
mkdir a/x
mkdir a/y
write a cpu.max 50000
write a cpu.max.burst 25000
write a/y cpu.weight 300
demand a/x 20
demand a/y 20
total
plan
cert
read a cpu.max
mkdir a
# a line that prints nothing
frob
demand a/x 0
demand a/y 0
rmdir a/x
rmdir a/y
rmdir a
"""


def transcript(words, texts):
    """The answers to these texts, one behind the other."""
    ended = subprocess.run([PROGRAM, *words], input=b"".join(texts), stdout=subprocess.PIPE,
                           timeout=PART_SECONDS, check=True)
    return ended.stdout


def resident(process):
    """What the process holds in memory, in KiB."""
    with open(f"/proc/{process.pid}/status", encoding="ascii") as status:
        return next((int(line.split()[1]) for line in status if line.startswith("VmRSS:")), 0)


def feed(process, first, block, times):
    """Writes the first lines and then the block so many times; a program that is gone ends it."""
    try:
        process.stdin.write(first)
        for _ in range(times):
            process.stdin.write(block)
        process.stdin.flush()
    except BrokenPipeError:
        pass


def answers(process, until, size):
    """Reads so many bytes, or fewer where the output ends or the time does."""
    said = b""
    while len(said) < size:
        if time.monotonic() > until:
            raise ValueError(f"no end in {PART_SECONDS} seconds")
        piece = os.read(process.stdout.fileno(), min(1 << 16, size - len(said)))
        if not piece:
            break
        said += piece
    return said


def part(name, words, first, block, times):
    """One long run: the block so many times, each with the same answer."""
    opening = transcript(words, [first])
    wanted = transcript(words, [first, block])[len(opening):]
    began, samples = time.monotonic(), []
    pipes = dict.fromkeys(["stdin", "stdout", "stderr"], subprocess.PIPE)
    with subprocess.Popen([PROGRAM, *words], **pipes) as process:
        ends = threading.Timer(PART_SECONDS, process.kill)
        writer = threading.Thread(target=feed, args=(process, first, block, times), daemon=True)
        try:
            ends.start()
            writer.start()
            until = began + PART_SECONDS
            if answers(process, until, len(opening)) != opening:
                return "the first lines are answered otherwise"
            for turn in range(times):
                said = answers(process, until, len(wanted))
                if said != wanted:
                    return f"block {turn}: {said[-300:]!r}"
                if turn * 100 // times > len(samples):
                    samples.append(resident(process))
            samples.append(resident(process))
            writer.join()
            rest, err = process.communicate()
            status = process.returncode
        finally:
            ends.cancel()
            if process.poll() is None:
                process.kill()
    early, late = samples[len(samples) // 10], samples[-1]
    print(f"  {name}: {time.monotonic() - began:.1f} seconds, "
          f"resident after a tenth {early} KiB, at the end {late} KiB, "
          f"at most {max(samples)} KiB in {len(samples)} samples", flush=True)
    if (rest, err, status) != (b"", b"", 0):
        return f"status {status}, {rest[:200]!r}, {err[:200]!r}"
    return f"{late - early} KiB more at the end" if late > early + GROWTH_KIB else None


def main():
    print(__doc__.split("\n\n")[2].strip(), flush=True)
    lines, failed = LINES.count(b"\n"), 0
    for name, words, first, block, times in [
        ("1,000 periods of 64 processors", ["run", "--processors", "64"], TREE, b"period\n", 1000),
        ("1,000,000 lines", ["run"], b"", LINES, 1000000 // lines),
        ("100,000 periods of one processor", ["run"], TREE, b"period\n", 100000),
    ]:
        try:
            wrong = part(name, words, first, block, times)
        except (OSError, ValueError, subprocess.SubprocessError) as error:
            wrong = str(error)
        if wrong:
            failed += 1
            print(f"FAILED: {name}: {wrong}")
    print(f"{3 - failed} passed, {failed} failed")
    return 1 if failed else 0


if __name__ == "__main__":
    sys.exit(main())
