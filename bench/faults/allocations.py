"""allocations.py [--jobs N] SHIM PROGRAM..: runs the lines `allocations 1` and `allocations 2` of stop_cases with the Nth
allocation refused, for each N. `bench/faults/allocations.sh` says what is looked at, and runs it."""
import argparse, collections, concurrent.futures, os, re, shutil, subprocess, sys, tempfile

LINE = re.compile(r"(allocations \d) = 28: (\d+), 25: (\d+), 26: (\d+), outside: (\d+), not allowed: (\d+)\n")
KINDS = ("refused 28", "refused 25", "refused 26", "outside of a call")


def run(program, line, **more):
    return subprocess.run(program, input=line + "\n", env=dict(os.environ, **more), capture_output=True, text=True)


def kind_of(ran):
    """Where the refusal fell, or None where it may not be so."""
    match = LINE.fullmatch(ran.stdout)
    if match is None:
        # The line itself could not be read or printed.
        is_short = ran.stdout == "28 Memory\n" or ran.returncode == 1 and "OutOfMemory" in ran.stderr and not ran.stdout
        return "while the line was read or printed" if is_short else None
    counts = [int(it) for it in match.groups()[1:]]
    if ran.returncode != 0 or counts[-1] != 0 or sum(counts) > 1:
        return None
    return dict(zip(counts, KINDS)).get(1, "no answer changed")


def tried(shim, program, line, jobs):
    """All refusals of one line: how many there were of each kind, and how many may not be."""
    with tempfile.NamedTemporaryFile() as file:
        plain = run(program, line, LD_PRELOAD=shim, COUNTED=file.name)
        number = int(file.read())
    if kind_of(plain) != "no answer changed":
        sys.exit(f"with ample memory: status {plain.returncode}, {plain.stdout}{plain.stderr}")

    def one(at):
        ran = run(program, line, LD_PRELOAD=shim, REFUSED=str(at))
        kind = kind_of(ran)
        if kind is None:
            print(f"NOT ALLOWED  {line}, allocation {at}: status {ran.returncode}, {ran.stdout.strip()!r}, {ran.stderr.strip()[:300]!r}", flush=True)
        return kind or "not allowed"

    with concurrent.futures.ThreadPoolExecutor(jobs) as pool:
        kinds = collections.Counter(pool.map(one, range(1, number + 1)))
    told = ", ".join(f"{kinds[it]} {it}" for it in (*KINDS, "no answer changed", "while the line was read or printed"))
    print(f"{line}: {number} allocations refused: {told}; not allowed: {kinds['not allowed']}", flush=True)
    return kinds["not allowed"]


def main():
    words = argparse.ArgumentParser(description=__doc__, add_help=False)
    words.add_argument("--jobs", type=int, default=2)
    words.add_argument("shim")
    words.add_argument("program", nargs=argparse.REMAINDER)
    found = words.parse_args()
    if not found.program or shutil.which(found.program[0]) is None:
        words.error(f"there is no program {' '.join(found.program)}")
    wrong = sum(tried(found.shim, found.program, f"allocations {script}", found.jobs) for script in (1, 2))
    return 1 if wrong else 0


if __name__ == "__main__":
    sys.exit(main())
