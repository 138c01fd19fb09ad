#!/usr/bin/env python3
"""Makes a list of calls on which two programs differ as short as it can.

    shrink.py INPUT DRIVER PROGRAM

DRIVER and PROGRAM are commands that read a list on standard input. The driver ends with status 3
where a list leaves the domain of comparison; such lists are never answered.
"""
import subprocess
import sys


def run(command, lines):
    done = subprocess.run(
        command, shell=True, input="".join(lines), capture_output=True, text=True
    )
    return done.returncode, done.stdout.splitlines()


def main():
    path, driver, program = sys.argv[1:4]

    def differs(lines):
        status, ours = run(driver, lines)
        return status == 0 and run(program, lines)[1] != ours

    with open(path) as file:
        lines = [line if line.endswith("\n") else line + "\n" for line in file]
    if not differs(lines):
        print("shrink: no difference, or the list leaves the domain of comparison")
        return
    # The shortest beginning that shows it.
    low, high = 0, len(lines)
    while high - low > 1:
        middle = (low + high) // 2
        if differs(lines[:middle]):
            high = middle
        else:
            low = middle
    lines = lines[:high]
    # Only the last cache, with the settings before it.
    starts = [at for at, line in enumerate(lines) if line.startswith("new ")]
    for at in reversed(starts):
        modes = [l for l in lines[:at] if l.split()[:1] in (["hash"], ["weigher"], ["lifecycle"])]
        if differs(modes + lines[at:]):
            lines = modes + lines[at:]
            break
    # Ever smaller pieces left out.
    size = max(1, len(lines) // 2)
    while True:
        at, shorter = 0, False
        while at < len(lines):
            fewer = lines[:at] + lines[at + size :]
            if fewer and differs(fewer):
                lines, shorter = fewer, True
            else:
                at += size
        if size > 1:
            size //= 2
        elif not shorter:
            break
    ours, theirs = run(driver, lines)[1], run(program, lines)[1]
    print("The shortest list found:")
    print("".join("    " + line for line in lines), end="")
    for name, answers in (("driver", ours), ("program", theirs)):
        print(f"Answers of the {name}:")
        print("".join(f"    {line}\n" for line in answers), end="")


main()
