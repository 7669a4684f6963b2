"""Times the nightly job: nightly.py ROOT ROOM

Writes the strings of the corpus notes, ten times over, as an archive in frames: each with its length in four octets before it, most significant first.
Runs the command on it as a user does. Prints, in one line with tabs: the command line, the notes, the octets of the file, the median and the greatest
of the wall times in seconds, how many they are, and the last line that the command printed. Where the command fails, as one without the verb does, it
prints nothing, and says so on standard error; likewise where it is not built, since bin/ctext would prove and build it first.
"""
import statistics
import struct
import subprocess
import sys
import time
from pathlib import Path

ROOT, ROOM = Path(sys.argv[1]), Path(sys.argv[2])
TIMES, RUNS = 10, 21


def strings(path):
    """The strings of a corpus, where the length before each has its lowest octet first."""
    octets, at = path.read_bytes(), 0
    while at < len(octets):
        (length,) = struct.unpack_from("<I", octets, at)
        yield octets[at + 4 : at + 4 + length]
        at += 4 + length


def run(command):
    """The wall time from the command's start to its end, and how it ended."""
    begun = time.perf_counter()
    done = subprocess.run(command, cwd=ROOT, stdin=subprocess.DEVNULL, capture_output=True, text=True, check=False)
    return time.perf_counter() - begun, done


def leave_out(why):
    print(f"bench/run: the nightly job is not measured: {why}", file=sys.stderr)
    sys.exit()


def main():
    if not (ROOT / "target" / "ctext" / "bin" / "ctext").exists():
        leave_out("the command is not built (lib/build)")
    notes = TIMES * list(strings(ROOM / "corpora" / "notes.corpus"))
    framed = ROOM / "notes.framed"
    framed.write_bytes(b"".join(struct.pack(">I", len(note)) + note for note in notes))
    command = ["bin/ctext", "archive", "--framed", str(framed.relative_to(ROOT))]
    times, ends = zip(*(run(command) for _ in range(RUNS)))
    failed = next((end for end in ends if end.returncode), None)
    if failed:
        leave_out(failed.stderr.partition("\n")[0] or f"bin/ctext ended with status {failed.returncode}")
    printed = ends[0].stdout.splitlines()[-1] if ends[0].stdout else ""
    print(" ".join(command), len(notes), framed.stat().st_size, statistics.median(times), max(times), RUNS, printed, sep="\t")


main()
