"""Programs that scripts of this folder prove and build beside the product. Each stands in a module: its name (`CRATE`), the crates that it
cites (`CITES`), the texts of its files (`FILES`), and of its specs and proofs, by their places, where it has some (`PROOFS`). It is proved to be safe (no contract says what it prints) and built as the product is, and stays in
crates/pbstore/out until the code is newer."""
import os, shutil, subprocess, sys, tempfile
import program_parts

TOP = os.path.dirname(os.path.dirname(os.path.abspath(__file__)))
OUT = os.path.join(TOP, "crates", "pbstore", "out")
LAST_LINES = 15


def crates_below(goals):
    """These crates and those that they stand on, lowest first, by crates.txt."""
    with open(os.path.join(TOP, "crates.txt")) as it:
        rows = [line.split("#")[0].partition(":") for line in it]
    cites = {head.split()[0]: cited.split() for head, _, cited in rows if head.strip()}
    found, left = set(), list(goals)
    while left:
        name = left.pop()
        if name in cites and name not in found:
            found.add(name)
            left += cites[name]
    return [name for name in cites if name in found]


def path_of(program):
    return os.path.join(OUT, program.CRATE)


def is_built(program, names):
    """Whether it was built since the files that it is made of were last written."""
    path = path_of(program)
    if not os.path.exists(path):
        return False
    parts = [os.path.join(TOP, "crates", name, part) for name in names for part in ("src", "specs", "proofs")]
    files = [os.path.join(at, it) for part in parts for at, _, its in os.walk(part) for it in its]
    return all(os.path.getmtime(it) <= os.path.getmtime(path) for it in [program.__file__, program_parts.__file__, *files])


def run_rt(log, words, place):
    with open(log, "a") as out:
        return subprocess.run(["rt", *words], cwd=place, stdin=subprocess.DEVNULL, stdout=out, stderr=subprocess.STDOUT).returncode


def make_tree(program, folder, names):
    """A copy of the crates, with what rt built of them, and with the program as a crate more."""
    for name in names:
        here, there = (os.path.join(it, "crates", name) for it in (TOP, folder))
        shutil.copytree(here, there, ignore=shutil.ignore_patterns("out", "must-fail", "data"))
        shutil.copytree(os.path.join(here, "out", "rlib"), os.path.join(there, "out", "rlib"), copy_function=os.link)
    with open(os.path.join(TOP, "crates.txt")) as it:
        rows = [line for line in it if line.split(":")[0].split(" ")[0] in names]
    with open(os.path.join(folder, "crates.txt"), "w") as it:
        it.write("".join(rows) + f"{program.CRATE}: {program.CITES}\n")
    shutil.copy(os.path.join(TOP, "HANDLES"), folder)
    place = os.path.join(folder, "crates", program.CRATE)
    files = {f"src/{name}.rt": text for name, text in program.FILES.items()}
    files |= {f"{name}.antt": text for name, text in getattr(program, "PROOFS", {}).items()}
    for name, text in files.items():
        os.makedirs(os.path.dirname(os.path.join(place, name)), exist_ok=True)
        with open(os.path.join(place, name), "w") as it:
            it.write(text)
    return place


def built(program):
    """Its path. Where it is not built, it is proved and built first, and what it stands on before it."""
    names, log = crates_below(program.CITES.split()), f"{path_of(program)}.log"
    if is_built(program, names):
        return path_of(program)
    if "pbs_server" in names and not os.path.exists(os.path.join(TOP, "crates", "pbs_server", "out", "rlib", "stamp")):
        # (which proves crates side by side)
        tell(program, "proving what the product is made of")
        subprocess.run([f"{TOP}/pbstore"], stderr=subprocess.DEVNULL)
    os.makedirs(OUT, exist_ok=True)
    with open(log, "w"):
        pass
    # (a crate of the toolchain is no row of crates.txt)
    cited = [it for it in program.CITES.split() if it in names]
    for name in cited:
        if any(name in crates_below([it]) for it in cited if it != name):
            continue
        tell(program, f"proving {name}")
        if run_rt(log, ["lib"], os.path.join(TOP, "crates", name)):
            fail(program, log, name)
    tell(program, f"proving {program.CRATE}")
    with tempfile.TemporaryDirectory(dir=OUT) as folder:
        place = make_tree(program, folder, names)
        # (it is run without arguments then, and does nothing)
        run_rt(log, ["run", "--"], place)
        made = os.path.join(place, "out", program.CRATE)
        if not os.access(made, os.X_OK):
            fail(program, log, program.CRATE)
        os.replace(made, path_of(program))
    return path_of(program)


def tell(program, what):
    print(f"{program.CRATE}: {what}", file=sys.stderr, flush=True)


def fail(program, log, name):
    with open(log, errors="replace") as it:
        last = it.readlines()[-LAST_LINES:]
    sys.exit("".join(f"  {line}" for line in last) + f"{program.CRATE}: {name} was not built; all of it is in {log}")
