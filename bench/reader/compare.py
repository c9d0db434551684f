"""Compares the plain reader with the outside reader.

    python3 bench/reader/compare.py

on the files of files.py and on all the cases of crates/readings/data/readings.txt.
Needs rustc; all that is built or written is in a temporary directory.
"""

import pathlib
import subprocess
import sys
import tempfile

HERE = pathlib.Path(__file__).resolve().parent
ROOT = HERE.parent.parent
CASES = ROOT / "crates" / "readings" / "data" / "readings.txt"

sys.dont_write_bytecode = True
sys.path.insert(0, str(ROOT / "outside"))
import reader  # noqa: E402  (after the path above)
import readings  # noqa: E402


def cases():
    """The name and the file of each archived case."""
    for part in ("\n" + CASES.read_text("ascii")).split("\ncase ")[1:]:
        lines = part.rstrip("\n").split("\n")
        yield lines[0], readings.restored(lines)


def main():
    """Builds, expands and compares."""
    with tempfile.TemporaryDirectory() as name:
        directory = pathlib.Path(name)
        files = directory / "files"
        check = directory / "check"
        subprocess.run(["rustc", "-O", HERE / "check.rs", "-o", check], check=True)
        subprocess.run([sys.executable, HERE / "files.py", files], check=True)
        for case, data in cases():
            (files / f"case-{case}").write_bytes(data)

        count = wrong = 0
        for file in sorted(files.iterdir()):
            answer = subprocess.run([check, file], check=True, stdout=subprocess.PIPE).stdout
            expected = reader.normalize(file.read_bytes())
            count += 1
            if answer != expected:
                wrong += 1
                print(f"{file.name}: {answer[:200]!r} in place of {expected[:200]!r}")
    print(f"{count} files, {wrong} wrong")
    sys.exit(0 if wrong == 0 else 1)


if __name__ == "__main__":
    main()
