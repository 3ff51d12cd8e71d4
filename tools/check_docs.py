#!/usr/bin/env python3
"""Runs each command of README.md and docs/, compares what it prints with what stands beside it, and looks for each message in docs/messages.md.

    check_docs.py OMEGA [FILE ..]

A block ```console holds commands, each after `$ ` (a line that begins with `> ` goes on with it), and below each command what it prints
on both streams. A page's blocks run in order in one empty folder with `models` and `tools` in it, and with `omega` to be called. The pieces of
messages are the texts in om_top/src/message.rt and om_top/src/faults.
"""

import os
import pathlib
import re
import shutil
import subprocess
import sys
import tempfile

TOP = pathlib.Path(__file__).resolve().parent.parent


def commands(text):
    """The commands of a page's console blocks, each with the output beside it and its line."""
    inside, found = False, []
    for number, line in enumerate(text.splitlines(), 1):
        if line.startswith("```"):
            inside = line == "```console"
        elif inside and line.startswith("$ "):
            found.append([number, line[2:], ""])
        elif inside and line.startswith("> "):
            found[-1][1] += "\n" + line[2:]
        elif inside:
            found[-1][2] += line + "\n"
    return found


def check(page, omega):
    wrong = 0
    with tempfile.TemporaryDirectory() as folder:
        for name in ("models", "tools"):
            shutil.copytree(TOP / name, pathlib.Path(folder) / name)
        bin_folder = pathlib.Path(folder) / "bin"
        bin_folder.mkdir()
        shutil.copy(omega, bin_folder / "omega")
        paths = f"{bin_folder}{os.pathsep}{os.environ['PATH']}"
        for number, command, expected in commands(page.read_text()):
            run = subprocess.run(
                ["bash", "-c", command], cwd=folder, env={**os.environ, "PATH": paths},
                stdin=subprocess.DEVNULL, stdout=subprocess.PIPE, stderr=subprocess.STDOUT, text=True, timeout=120,
            )
            if run.stdout != expected:
                wrong += 1
                print(f"{page.relative_to(TOP)}:{number}: {command}\n--- beside it\n{expected}--- printed\n{run.stdout}")
    return wrong


def missing_messages():
    page = (TOP / "docs" / "messages.md").read_text()
    sources = TOP / "crates" / "om_top" / "src"
    missing = 0
    for source in [sources / "message.rt", *sorted((sources / "faults").glob("*.rt"))]:
        for piece in re.findall(r'b"([^"]*)"', source.read_text()):
            if piece.replace("\\n", "") not in page:
                missing += 1
                print(f"{source.relative_to(TOP)}: not in docs/messages.md: {piece}")
    return missing


def main():
    omega = pathlib.Path(sys.argv[1]).resolve()
    pages = [pathlib.Path(name).resolve() for name in sys.argv[2:]] or [TOP / "README.md", *sorted((TOP / "docs").glob("*.md"))]
    wrong, missing = sum(check(page, omega) for page in pages), missing_messages()
    print(f"{wrong} commands print something else" if wrong else "each command prints what stands beside it")
    sys.exit(1 if wrong or missing else 0)


if __name__ == "__main__":
    main()
