#!/usr/bin/env python3
"""Times commands of the shell in turns: all of them once, then all of them again, so that each meets the same noise.

    turns.py [--runs N] [--same] COMMAND COMMAND ..

For each command it prints the median of its times with the least and the greatest, the median of its processor times, and the
peak of the memory of its largest process, which it sees from 20 MB on. For each but the last it prints too its time over that
of every command after it, run by run. With --same it stops where two commands write something else.
"""
import argparse, hashlib, os, statistics, subprocess, sys, time


def run(command):
    start = time.monotonic()
    child = subprocess.Popen(["sh", "-c", command], stdout=subprocess.PIPE, stderr=subprocess.DEVNULL)
    output = hashlib.sha256()
    while block := os.read(child.stdout.fileno(), 1 << 20):
        output.update(block)
    _, status, usage = os.wait4(child.pid, 0)
    took = time.monotonic() - start
    if os.waitstatus_to_exitcode(status) not in (0, 1):
        sys.exit(f"{command}: status {os.waitstatus_to_exitcode(status)}")
    return took, usage.ru_utime + usage.ru_stime, usage.ru_maxrss / 1024, output.digest()


def middle(numbers, digits):
    return f"{statistics.median(numbers):.{digits}f} ({min(numbers):.{digits}f} to {max(numbers):.{digits}f})"


def main():
    args = argparse.ArgumentParser(usage=__doc__.split("\n\n")[1].strip())
    args.add_argument("--runs", type=int, default=5)
    args.add_argument("--same", action="store_true")
    args.add_argument("commands", nargs="+")
    args = args.parse_args()
    runs = [[] for _ in args.commands]
    for _ in range(args.runs):
        for command, done in zip(args.commands, runs):
            done.append(run(command))
        if args.same and len({done[-1][3] for done in runs}) > 1:
            sys.exit("two commands write something else")
    for at, (command, done) in enumerate(zip(args.commands, runs)):
        print(f"{at + 1}: {command}")
        print(f"   {middle([one[0] for one in done], 3)} s, processor {statistics.median(one[1] for one in done):.3f} s, "
              f"memory {max(one[2] for one in done):.0f} MB")
        for other in range(at + 1, len(runs)):
            print(f"   over {other + 1}: {middle([a[0] / b[0] for a, b in zip(done, runs[other])], 2)}")


main()
