#!/usr/bin/env python3
"""Times the planner alone: `levels`, `gather`, `plan` and `plan_levels` on six shapes of tree.

    bench/planner.py           each time is the least of 100 runs
    bench/planner.py RUNS      .. of so many

The table has microseconds, on a host of 64 processors. The program is `bench/planner/`, which is no
crate of the repository: it is proved and compiled in a copy of the crates that it stands on. What
is proved of them already is not proved again. Status 1: it was not proved or did not run.
"""
import os
import shutil
import subprocess
import sys
import tempfile
from pathlib import Path

ROOT = Path(__file__).resolve().parent.parent
sys.path.insert(0, str(ROOT / "scripts"))
from crates import with_all_below  # noqa: E402

NAME, STANDS_ON = "planner_times", ["bw_model", "bw_demand", "bw_plan"]


def set_up(copy: Path) -> Path:
    """Makes the crate and a copy of all crates below it. Its folder."""
    below = {each for name in STANDS_ON for each in with_all_below(name)}
    for crate in below:
        shutil.copytree(f"crates/{crate}", copy / "crates" / crate, symlinks=True)
    lines = Path("crates.txt").read_text(encoding="utf-8").splitlines()
    kept = [line for line in lines if line.partition(":")[0].split()[:1] and
            line.partition(":")[0].split()[0] in below]
    kept.append(f"{NAME}: {' '.join(STANDS_ON)}")
    (copy / "crates.txt").write_text("".join(f"{line}\n" for line in kept), encoding="utf-8")
    shutil.copy("HANDLES", copy)
    crate = copy / "crates" / NAME
    (crate / "src").mkdir(parents=True)
    for path in Path("bench/planner").glob("*.rattle"):
        shutil.copy(path, crate / "src" / f"{path.stem}.rt")
    return crate


def main(words: list[str]) -> int:
    if len(words) > 1 or not all(word.isdecimal() for word in words):
        print("usage: bench/planner.py [RUNS]", file=sys.stderr)
        return 2
    os.chdir(ROOT)
    with tempfile.TemporaryDirectory(prefix="arbiter-planner.") as folder:
        crate = set_up(Path(folder))
        ended = subprocess.run(["rt", "run", "--", *(words or ["100"])], cwd=crate, check=False)
    return 1 if ended.returncode else 0


if __name__ == "__main__":
    sys.exit(main(sys.argv[1:]))
