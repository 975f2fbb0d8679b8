"""Programs that a bench is made of: a text over some of the crates here, proved and built, and kept in out/."""
import hashlib
import pathlib
import shutil
import subprocess
import sys

TOP = pathlib.Path(__file__).resolve().parent.parent


def fingerprint(text, crates, invariants):
    """The sources that a program is made of."""
    found = hashlib.sha256(repr(invariants).encode())
    files = [text]
    for crate in crates:
        sources = (path for end in ("rt", "antt") for path in (TOP / "crates" / crate).rglob(f"*.{end}"))
        files += sorted(path for path in sources if "out" not in path.relative_to(TOP).parts)
    for path in files:
        found.update(path.name.encode() + b"\0" + path.read_bytes() + b"\0")
    return found.hexdigest()


def built(name, crates, below, invariants=None):
    """The program of bench/NAME-program.txt, built in a copy of these crates, if it is not there yet.

    `below` is what its line of crates.txt has, and `invariants` are texts by the function whose loop they are for.
    """
    invariants = invariants or {}
    text = TOP / "bench" / f"{name}-program.txt"
    kept = TOP / "out" / f"bench_{name}"
    mark, program = kept / "sources", kept / f"{name}_bench"
    sources = fingerprint(text, crates, invariants)
    if program.exists() and mark.exists() and mark.read_text() == sources:
        return program
    copy = kept / "copy"
    shutil.rmtree(copy, ignore_errors=True)
    lines = [line for line in (TOP / "crates.txt").read_text().splitlines() if line.split(":")[0] in crates]
    for crate in crates:
        ignored = shutil.ignore_patterns("out", "must-fail")
        shutil.copytree(TOP / "crates" / crate, copy / "crates" / crate, ignore=ignored)
    made = copy / "crates" / f"{name}_bench"
    (made / "src").mkdir(parents=True)
    shutil.copy(text, made / "src" / "main.rt")
    for function, lines_of in invariants.items():
        (made / "proofs" / function).mkdir(parents=True)
        (made / "proofs" / function / "Invariants.antt").write_text(lines_of)
    (copy / "crates.txt").write_text("\n".join(lines) + f"\n{name}_bench: {below}\n")
    shutil.copy(TOP / "HANDLES", copy / "HANDLES")
    print(f"bench/{name}: the program is proved and built, which takes some minutes", file=sys.stderr)
    with open(kept / "log", "w", encoding="utf-8") as out:
        # Without words it does next to nothing, and ends.
        done = subprocess.run(["rt", "run", "--jobs", "2"], cwd=made, stdout=out, stderr=out, check=False)
    if done.returncode != 0 or not (made / "out" / f"{name}_bench").exists():
        sys.exit(f"bench/{name}: no program came of it: {kept / 'log'}")
    shutil.copy(made / "out" / f"{name}_bench", program)
    mark.write_text(sources)
    shutil.rmtree(copy)
    return program
