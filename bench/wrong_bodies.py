#!/usr/bin/env python3
"""wrong_bodies.py [CRATE..]: tries the wrong bodies of bench/wrong_bodies, each of which the prover must refuse.

They are must-fail edits like those in crates/CRATE/must-fail, which the test command tries; these stand here because
to try one costs up to as much as the proof of its crate. They are put beside the others in a new clone of the
repository, as it was last committed, and `rt must-fail` of those crates builds what stands below them and tries them.
Without names: all crates that have some. The status is that of `rt must-fail`.
"""
import pathlib
import shutil
import subprocess
import sys
import tempfile

TOP = pathlib.Path(__file__).resolve().parent.parent
FOLDERS = TOP / "bench" / "wrong_bodies"


def main():
    names = sys.argv[1:] or sorted(folder.name for folder in FOLDERS.iterdir())
    with tempfile.TemporaryDirectory() as room:
        subprocess.run(["git", "clone", "--quiet", TOP, room], check=True)
        for name in names:
            into = pathlib.Path(room, "crates", name, "must-fail")
            into.mkdir(exist_ok=True)
            for edit in sorted((FOLDERS / name).glob("*.edit")):
                shutil.copy(edit, into)
        return subprocess.run(["rt", "must-fail", *names], cwd=room).returncode


if __name__ == "__main__":
    sys.exit(main())
