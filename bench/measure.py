#!/usr/bin/env python3
"""Least time of a processor and most memory of a command, of `cat` and of `sha256sum` on one image.

    measure.py REPEATS IMAGE [--refused] [--mib-a-second LEAST] NAME RATIO MOST COMMAND ..

Fails where the command takes more than RATIO times as long as `sha256sum`, holds more than MOST bytes, or reads less than LEAST
MiB of the image a second. It has to end with status 0, or with 1 where `--refused` says so."""

import os
import sys
import time


def memory_of(child):
    """The most memory in KiB that the program held so far, 0 before it has taken this one's place."""
    try:
        if os.readlink(f"/proc/{child}/exe") == os.readlink("/proc/self/exe"):
            return 0
        with open(f"/proc/{child}/status", encoding="ascii") as status:
            return next((int(line.split()[1]) for line in status if line.startswith("VmHWM")), 0)
    except OSError:
        return 0


def run(command, wanted=0, unread=os.devnull):
    """Seconds of a processor, and the most memory in KiB, of a command that reads a file as its standard input and whose output is
    thrown away.

    The memory is looked at while it runs: what the system tells at its end counts the process that it was made from."""
    child = os.fork()
    if child == 0:
        null = os.open(os.devnull, os.O_WRONLY)
        os.dup2(os.open(unread, os.O_RDONLY), 0)
        os.dup2(null, 1)
        if wanted != 0:
            os.dup2(null, 2)
        os.execvp(command[0], command)
    most = 0
    while True:
        ended, status, usage = os.wait4(child, os.WNOHANG)
        if ended:
            break
        most = max(most, memory_of(child))
        time.sleep(0.001)
    if os.waitstatus_to_exitcode(status) != wanted:
        sys.exit(f"{command[0]} ended with status {os.waitstatus_to_exitcode(status)}")
    return usage.ru_utime + usage.ru_stime, most


def least(repeats, command, wanted=0):
    runs = [run(command, wanted) for _ in range(repeats)]
    return min(seconds for seconds, _ in runs), max(memory for _, memory in runs)


def main(words):
    repeats, image, words = int(words[0]), words[1], words[2:]
    wanted, least_speed = 0, 0.0
    if words[0] == "--refused":
        wanted, words = 1, words[1:]
    if words[0] == "--mib-a-second":
        least_speed, words = float(words[1]), words[2:]
    asked, ratio, most, command = words[0], float(words[1]), int(words[2]), words[3:]
    size = os.path.getsize(image)
    print(f"image: {size} bytes")
    measured = {name: least(repeats, [name, image]) for name in ["cat", "sha256sum"]}
    measured[asked] = least(repeats, command, wanted)
    for name, (seconds, memory) in measured.items():
        print(f"{name:15} {seconds:7.3f} s {size / seconds / 2**20:8.0f} MiB/s {memory:8} KiB")
    seconds, memory = measured[asked]
    times, speed = seconds / measured["sha256sum"][0], size / seconds / 2**20
    print(f"{asked} / sha256sum = {times:.2f}, memory {memory / 1024:.1f} MiB of {most / 2**20:.1f}")
    if times > ratio or memory * 1024 > most or speed < least_speed:
        sys.exit(f"{asked} is slower, or holds more, than it may")


if __name__ == "__main__":
    main(sys.argv[1:])
