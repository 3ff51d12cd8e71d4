#!/usr/bin/env python3
"""Writes the table of exact gauge checks, crates/om_top/src/tests/gauge.rt.

    gauge_cases.py OMEGA > crates/om_top/src/tests/gauge.rt

For each process an event on the mass shell, with a generic wave function and with the momentum of a photon or gluon in its place. OMEGA is
the program that says what the generic event prints: take one that isn't the one under test. The other answer is 0 in each flow.
"""

import pathlib
import subprocess
import sys
import tomllib

TOP = pathlib.Path(__file__).resolve().parent.parent
MODEL = TOP / "models" / "sm.toml"
CHECKS = [
    ("e- e+ -> A A A", 3),
    ("u u~ -> g g", 3),
    ("u d~ -> W+ A", 4),
    ("e- e+ -> W+ W- A", 5),
    ("g g -> t t~ H", 1),
]


def inline(value):
    if isinstance(value, str):
        return f"'{value}'"
    if isinstance(value, list):
        return "[" + ", ".join(map(inline, value)) + "]"
    if isinstance(value, dict):
        return "{" + ", ".join(f"{key} = {inline(item)}" for key, item in value.items()) + "}"
    return str(value)


def event(process, *leg):
    tool = [sys.executable, TOP / "tools" / "on_shell_event.py", MODEL, process, "1", *map(str, leg)]
    return subprocess.run(tool, check=True, stdout=subprocess.PIPE, text=True).stdout


def answer(omega, process, text):
    run = [omega, "eval", MODEL, process]
    return subprocess.run(run, check=True, input=text, stdout=subprocess.PIPE, text=True).stdout


def literal(text):
    return '"' + text.replace("\n", "\\n") + '"'


def main():
    model = tomllib.loads(MODEL.read_text())
    text = "".join(f"{key} = {inline(value)}\n" for key, value in model.items())
    print("//! Gauge invariance, exactly: with the momentum of a photon or gluon in place of its wave function each flow is 0, with a generic one it isn't.")
    print("//! Written by tools/gauge_cases.py; the numbers are those of another program.")
    print("use super::case::{Case, FOUR, check_cases};\nuse std::test::Fail;\n")
    print(f"// The standard model, `models/sm.toml` in short.\nconst STANDARD_MODEL: &str =\n    {literal(text)};\n")
    print("const CASES: &[Case] = &[")
    for process, leg in CHECKS:
        generic, pure_gauge = event(process), event(process, leg)
        values = answer(sys.argv[1], process, generic)
        zeros = "".join(line.rsplit(" ", 1)[0] + " 0\n" for line in values.splitlines())
        for text, out in ((generic, values), (pure_gauge, zeros)):
            print("    Case {")
            print(f'        words: &["eval", "model.toml", "{process}"],\n        file: Some(STANDARD_MODEL),')
            print(f"        input: {literal(text)},\n        out: {literal(out)},\n        ..FOUR\n    }},")
    print("];\n")
    print("#[test]\nfn gauge_invariance_is_exact(rt: HostRuntime) -> Result<(), Fail> {\n    check_cases(&rt, rt.alloc(), CASES)\n}")


if __name__ == "__main__":
    main()
