#!/usr/bin/env python3
"""Lists the answers that the check finds alone.

    python3 tools/idle_answers.py CRATE..

Run it in a checkout with nothing uncommitted. It takes each answer out of each Answers.antt in turn, checks the
function twice, once with half the search's limits, and puts the answer back; an answer is idle where both prove the
function without it.
"""

import pathlib
import re
import subprocess
import sys


def checks(crate, function):
    """Whether the function is proved, and with half the search's limits too: what needs all of them may fall later."""
    for more in ([], ["--margin"]):
        run = subprocess.run(
            ["rt", "check", "--only", function] + more,
            cwd=crate,
            capture_output=True,
            text=True,
            stdin=subprocess.DEVNULL,
        )
        if run.returncode != 0:
            return False
    return True


def main():
    for name in sys.argv[1:]:
        crate = pathlib.Path("crates") / name
        for path in sorted((crate / "proofs").rglob("Answers.antt")):
            text = path.read_text()
            goals = re.findall(r"^pub (\S+) : goal\.\S+\n(?:unfolding.*\n)?(?:\1\b.*\n(?:[ \t].*\n|\n(?=[ \t]))*)", text, re.M)
            function = "::".join(path.relative_to(crate / "proofs").parts[:-1])
            idle = []
            for goal in goals:
                rest = re.sub(
                    rf"^pub {re.escape(goal)} : goal\.\S+\n(?:unfolding.*\n)?(?:{re.escape(goal)}\b.*\n(?:[ \t].*\n|\n(?=[ \t]))*)\n*",
                    "",
                    text,
                    flags=re.M,
                )
                if rest == text:
                    continue
                try:
                    path.write_text(rest)
                    if checks(crate, f"{name}::{function}"):
                        idle.append(goal)
                finally:
                    path.write_text(text)
            print(f"{path}: {len(goals)} answers, idle: {', '.join(idle) or 'none'}", flush=True)


main()
