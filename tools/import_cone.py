#!/usr/bin/env python3
"""What has to be read to believe a clause: the files of specs/ on which some files of specs/ stand, by their imports.

    import_cone.py CRATE/FILE ..           prints them as the table of docs/reading.md: each with the sentence at its head
    import_cone.py --check docs/reading.md compares that page with the cone of the files that it names first, in `stands on`

CRATE/FILE is as `om_top/Ran`.
"""

import pathlib
import re
import sys

TOP = pathlib.Path(__file__).resolve().parent.parent
CRATES = TOP / "crates"
IMPORT = re.compile(r"^\s*(?:pub )?use ([^;{\n]+)", re.M)


def path_of(file):
    crate, name = file.split("/")
    return CRATES / crate / "specs" / f"{name}.antt"


def imports(file):
    """The files of specs/ that a file imports."""
    for path in IMPORT.findall(path_of(file).read_text()):
        parts = path.strip().rstrip(".").split(".")
        if "specs" not in parts:
            continue
        at = parts.index("specs")
        crate = parts[at - 1] if at > 0 and (CRATES / parts[at - 1]).is_dir() else file.split("/")[0]
        name = f"{crate}/{parts[at + 1]}" if at + 1 < len(parts) else ""
        if name and path_of(name).is_file():
            yield name


def cone(starts):
    seen, todo = set(), list(starts)
    while todo:
        file = todo.pop()
        if file not in seen:
            seen.add(file)
            todo += imports(file)
    return seen


def head(file):
    """The sentence at the head of a file."""
    lines = []
    for line in path_of(file).read_text().splitlines():
        if not line.startswith("--"):
            break
        lines.append(line.lstrip("- ").strip())
    return " ".join(lines) or "(no sentence at its head)"


def crates_in_order():
    lines = (TOP / "crates.txt").read_text().splitlines()
    return [line.split(":")[0] for line in lines if ":" in line and not line.startswith("#")]


def table(files):
    rows = []
    for crate in reversed(crates_in_order()):
        of_crate = sorted(file for file in files if file.startswith(crate + "/"))
        if of_crate:
            rows += ["", f"### `{crate}`", "", "| file | what it says |", "|---|---|"]
            rows += [f"| `{crate}/specs/{file.split('/')[1]}.antt` | {head(file)} |" for file in of_crate]
    return "\n".join(rows[1:])


def main():
    if sys.argv[1] == "--check":
        page = pathlib.Path(sys.argv[2]).read_text()
        starts = re.findall(r"`(\w+/\w+)`", page.split("stands on", 1)[1].split("\n\n", 1)[0])
        named = {f"{crate}/{name}" for crate, name in re.findall(r"^\| `(\w+)/specs/(\w+)\.antt`", page, re.M)}
        files = cone(starts)
        for file in sorted(files ^ named):
            print("not in the page:" if file in files else "not in the cone:", file)
        print("the page names the cone" if files == named else "the page is out of date")
        sys.exit(0 if files == named else 1)
    print(table(cone(sys.argv[1:])))


if __name__ == "__main__":
    main()
