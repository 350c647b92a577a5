"""Runs the steps of sections of docs/TUTORIAL.md as they stand there, for bench/peers/peers.py: blocks marked sh and shell line by
line, python as a program, sql by DuckDB. What a block prints must be the block marked text that comes next, where one does."""
import os, shutil, subprocess, sys

SECTIONS = ("## Read it with other tools", "## Import files that many processes made")


def blocks(document):
    """The marked blocks of these sections: mark and lines."""
    found, inside, block = [], False, None
    for line in open(document).read().split("\n"):
        if block is None and line.startswith("## "):
            inside = line in SECTIONS
        if inside and line.startswith("```"):
            if block is None:
                block = (line[3:], [])
            else:
                found.append(block)
                block = None
        elif block is not None:
            block[1].append(line)
    return found


def ran(mark, lines, folder):
    """What a block prints, and what it says on standard error."""
    if mark == "python":
        # The import makes up for a name that Debian's cramjam lacks.
        text = "\n".join((["import fast"] if "fastparquet" in "\n".join(lines) else []) + lines)
        open(f"{folder}/step.py", "w").write(text + "\n")
        words = [[sys.executable, "-W", "ignore", "step.py"]]
    elif mark == "sql":
        words = [["duckdb", "-csv", "-c", "\n".join(lines)]]
    else:
        words = [["sh", "-c", line] for line in lines]
    environment = {**os.environ, "PYTHONPATH": os.path.dirname(os.path.abspath(__file__))}
    done = [subprocess.run(it, cwd=folder, env=environment, capture_output=True, text=True) for it in words]
    return "".join(it.stdout for it in done).strip(), "".join(it.stderr for it in done).strip()


def run(program, document, samples, folder, tell):
    """Runs all blocks; returns how many were tried."""
    os.makedirs(folder)
    shutil.copytree(samples, f"{folder}/sample")
    os.symlink(program, f"{folder}/pqds")
    steps, tried = blocks(document), 0
    for (mark, lines), (after, shown) in zip(steps, steps[1:] + [("", [])]):
        if mark == "text":
            continue
        tried += 1
        (printed, said), wanted = ran(mark, lines, folder), "\n".join(shown).strip() if after == "text" else ""
        if printed != wanted:
            tell(f"tutorial, {lines[0]}: printed\n{printed}\n{said}\nwhere the page shows\n{wanted}")
    return tried
