"""What the checks share that ask the built program many times."""
import concurrent.futures
import os
import subprocess
import sys
import tempfile

TOP = os.path.dirname(os.path.dirname(os.path.abspath(__file__)))
PROGRAM = os.environ.get("VOLUTECRESS_PROGRAM") or os.path.join(TOP, "crates", "bst_run", "out", "bst_run")


def built(check):
    """Builds the program where it isn't there, or ends the check."""
    if not os.access(PROGRAM, os.X_OK):
        # The launcher builds the program first; without words that prints the usage.
        subprocess.run([os.path.join(TOP, "volutecress")], stdin=subprocess.DEVNULL, stderr=subprocess.DEVNULL)
    if not os.access(PROGRAM, os.X_OK):
        sys.exit(f"{check}: no program at {PROGRAM}")


def put(folder, files):
    """Writes files into a folder: each name with its bytes."""
    for name, content in files.items():
        with open(os.path.join(folder, name), "wb") as file:
            file.write(content)


def answers(words, shared, cases):
    """The answer to the words over each case, many at once: status, standard output and standard error. A case is the files that it
    has beside those that all share."""
    lanes = max(1, min(len(os.sched_getaffinity(0)), len(cases)))

    def lane(number):
        said = []
        with tempfile.TemporaryDirectory() as folder:
            put(folder, shared)
            for case in cases[number::lanes]:
                put(folder, case)
                ran = subprocess.run([PROGRAM, *words], cwd=folder, stdin=subprocess.DEVNULL, capture_output=True, timeout=300)
                said.append((ran.returncode, ran.stdout, ran.stderr))
        return said

    with concurrent.futures.ThreadPoolExecutor(lanes) as pool:
        by_lane = list(pool.map(lane, range(lanes)))
    return [by_lane[at % lanes][at // lanes] for at in range(len(cases))]


def is_in(text, line, column):
    """Whether a line and a column, counted from 1, are those of a byte of the text or of its end."""
    lines = text.split(b"\n")
    return line <= len(lines) and column <= len(lines[line - 1]) + 1
