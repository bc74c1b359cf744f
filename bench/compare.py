"""`taf_hub replay` beside `PROGRAM replay`, which answers lines as it does: bench/run compare PROGRAM [FILE]

Without a FILE it gives both the three mixes of bench/mixes.py, of LINES lines each (200,000, and at most that) from the seed SEED (1),
in turn and RUNS times each (15), with the output to /dev/null. A row has the medians of wall time, of processor time (user and system,
with that of children) and of peak memory, ours divided by the other's, and whether the answers are the same byte for byte, by one run
more. The last line has the processor time that a line takes `taf_hub` in the first quarter of such lines of journeys of a hundredth as
many wagons, in as many, and in four and a half times as many.

With a FILE it gives both its lines, RUNS times each (5), and keeps the answers in a folder of TMPDIR. The status is 1 where answers
differ, or a program fails."""
import functools
import itertools
import os
import pathlib
import statistics
import subprocess
import sys
import tempfile

from hub_server import PROGRAM, TOP

MIXES = ("journeys", "questions", "plans")


def run(program, lines, answers=os.devnull):
    """Milliseconds of wall time and of processor time and MiB of peak memory that the program takes for the lines of a file."""
    words = [sys.executable, "-I", "-S", TOP / "bench/one_run.py", program, lines, answers]
    said = subprocess.run(words, stdout=subprocess.PIPE, text=True)
    if said.returncode:
        sys.exit(f"bench: {program} ends with status {said.returncode}")
    return [float(it) for it in said.stdout.split()]


def runs_in_turn(count, *runs):
    """What each of these runs measures, so many times: for each a list of wall times, of processor times and of peak memory."""
    measured = [[it() for it in runs] for _ in range(count)]
    return [list(zip(*of_one)) for of_one in zip(*measured)]


def difference(ours, others):
    """`same`, or the first line in which the files differ."""
    said = subprocess.run(["cmp", ours, others], stdout=subprocess.PIPE, stderr=subprocess.STDOUT, text=True)
    return f"differ, first in line {said.stdout.strip().rpartition('line ')[2]}" if said.returncode else "same"


def made(folder, mix, count, *more):
    """A file of lines of a mix."""
    file = folder / mix
    with file.open("wb") as sink:
        subprocess.run([TOP / "bench/mixes.py", mix, str(count), os.environ.get("SEED", "1"), *map(str, more)], stdout=sink, check=True)
    return file


def show_mix(folder, other, mix, count, runs):
    """Prints the row of a mix, and returns whether the answers are the same."""
    lines = made(folder, mix, count)
    measured = runs_in_turn(runs, functools.partial(run, PROGRAM, lines), functools.partial(run, other, lines))
    figures = zip(*(map(statistics.median, it) for it in measured))
    columns = (f"{ours:9.1f} {others:9.1f} {ours / others:6.2f}" for ours, others in figures)
    run(PROGRAM, lines, folder / "ours")
    run(other, lines, folder / "others")
    same = difference(folder / "ours", folder / "others")
    print(f"{mix:<10}", *columns, f" {same}", flush=True)
    return same == "same"


def show_growth(folder, count, runs):
    """Prints the processor time of a line in histories of three lengths."""
    counts, parts = [count // 4, count, count * 9 // 2], []
    lines = made(folder, "journeys", counts[-1], max(count // 100, 1))
    for it in counts:
        parts.append(folder / f"first {it}")
        with lines.open("rb") as source, parts[-1].open("wb") as sink:
            sink.writelines(itertools.islice(source, it))
    measured = runs_in_turn(runs, *(functools.partial(run, PROGRAM, it) for it in parts))
    figures = (f"{1000 * statistics.median(used) / it:.2f} us in {it} lines" for (_, used, _), it in zip(measured, counts))
    print(f"processor time of taf_hub for a line of journeys of {count // 100} wagons:", ", ".join(figures))


def compare_mixes(folder, other):
    count, runs = int(os.environ.get("LINES", 200_000)), int(os.environ.get("RUNS", 15))
    if not 100 <= count <= 200_000:
        sys.exit("bench: LINES is 100 to 200000")
    print(f"{count} lines of each mix; medians of {runs} runs in turn of taf_hub and of {pathlib.Path(other).name} (other)")
    print(f"{'':<10}", *(f"{it:<26}" for it in ("     wall time, ms", "     processor time, ms", "     peak memory, MiB")))
    print(f"{'mix':<10}", *[f"{'taf_hub':>9} {'other':>9} {'ratio':>6}"] * 3, " answers", flush=True)
    same = [show_mix(folder, other, mix, count, runs) for mix in MIXES]
    show_growth(folder, count, runs)
    return all(same)


def compare_file(folder, other, lines):
    runs, ours, others = int(os.environ.get("RUNS", 5)), folder / "ours", folder / "others"
    measured = runs_in_turn(runs, functools.partial(run, PROGRAM, lines, ours), functools.partial(run, other, lines, others))
    with open(lines, "rb") as source:
        count = sum(1 for _ in source)
    best, median = zip(*((min(wall), statistics.median(wall)) for wall, *_ in measured))
    for at, name in enumerate(["taf_hub", pathlib.Path(other).name]):
        print(f"{name}: {count} things, best {best[at]:.0f} ms, median {median[at]:.0f} ms")
    print(f"taf_hub takes {best[0] / best[1]:.2f} times as long by the best, {median[0] / median[1]:.2f} times by the medians")
    same = difference(ours, others)
    print("the answers are the same" if same == "same" else f"the answers {same}")
    return same == "same"


def main():
    if len(sys.argv) not in (2, 3):
        print("bench: compare PROGRAM [FILE]", file=sys.stderr)
        sys.exit(2)
    # This builds the program where it is not there.
    subprocess.run([TOP / "taf", "number", "000000000000"], check=True, stdout=subprocess.DEVNULL)
    with tempfile.TemporaryDirectory() as name:
        compare = compare_file if len(sys.argv) == 3 else compare_mixes
        sys.exit(0 if compare(pathlib.Path(name), *sys.argv[1:]) else 1)


if __name__ == "__main__":
    main()
