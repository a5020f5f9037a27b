#!/usr/bin/env python3
"""Runs the commands that a document shows, and compares what they write with what is shown.

    shown.py FILE ..

In a block between two lines of three backquotes a line that begins with `$ ` is a command, with the lines up to END where it
ends in <<'END'. The lines behind it are what it writes. Blocks without a command aren't looked at.
"""
import subprocess
import sys


def blocks_of(text):
    """The blocks of a document, each as its lines."""
    return [part.strip("\n").split("\n") for part in text.split("\n```")[1::2]]


def commands_of(lines):
    """The commands of a block, each with what is shown to be written."""
    found, at = [], 0
    while at < len(lines):
        if not lines[at].startswith("$ "):
            at += 1
            continue
        command, at = [lines[at][2:]], at + 1
        if "<<'END'" in command[0]:
            end = lines.index("END", at)
            command, at = command + lines[at : end + 1], end + 1
        shown = []
        while at < len(lines) and not lines[at].startswith("$ "):
            shown.append(lines[at] + "\n")
            at += 1
        found.append(("\n".join(command) + "\n", "".join(shown)))
    return found


def main():
    passed = failed = 0
    for name in sys.argv[1:]:
        with open(name, encoding="utf-8") as file:
            blocks = blocks_of("\n" + file.read())
        for command, shown in (it for block in blocks for it in commands_of(block)):
            done = subprocess.run(["bash", "-c", command], capture_output=True, text=True, timeout=60, check=False)
            if done.stdout == shown and not done.stderr:
                passed += 1
            else:
                failed += 1
                print(f"{name}: {command}wrote:\n{done.stdout}{done.stderr}")
    print(f"shown in documents: {passed} as they are shown, {failed} other")
    sys.exit(1 if failed or not passed else 0)


main()
