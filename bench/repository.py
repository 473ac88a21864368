"""A repository for a program above crates of this one, or for one of its own, for what no command does yet."""

import os
import shutil
import subprocess
import sys

TOP = os.path.dirname(os.path.dirname(os.path.abspath(__file__)))


def crate_lines(libraries):
    """What each crate uses, of those of this repository at or below the libraries."""
    uses = {}
    with open(os.path.join(TOP, "crates.txt")) as file:
        for line in file:
            name, colon, used = line.split("#")[0].partition(":")
            if colon:
                uses[name.strip()] = used.split()
    wanted = [name for name in libraries if name in uses]
    for name in wanted:
        wanted += [used for used in uses[name] if used in uses and used not in wanted]
    return {name: uses[name] for name in wanted}


def write(path, text):
    os.makedirs(os.path.dirname(path), exist_ok=True)
    with open(path, "w") as file:
        file.write(text)


def copy_crate(name, folder):
    for part in ("src", "specs", "proofs"):
        source = os.path.join(TOP, "crates", name, part)
        target = os.path.join(folder, "crates", name, part)
        shutil.rmtree(target, ignore_errors=True)
        if os.path.isdir(source):
            shutil.copytree(source, target)


def copy_crates(folder, crates):
    for crate in crates:
        copy_crate(crate, folder)
    shutil.copy(os.path.join(TOP, "HANDLES"), folder)


def write_crates(folder, crates):
    lines = [f"{crate}: {' '.join(used)}\n" for crate, used in crates.items()]
    write(os.path.join(folder, "crates.txt"), "".join(lines))


def prove(crate, command):
    """Proves a crate and builds what the command runs."""
    print("proving and building, which takes minutes", file=sys.stderr)
    made = subprocess.run(["rt", command], cwd=crate, stdin=subprocess.DEVNULL, capture_output=True, text=True)
    if made.returncode != 0:
        sys.exit(made.stdout + made.stderr)


def build(folder, name, libraries, files):
    """Makes the repository, proves and builds the program in it, which has these files, and gives the
    path of what it runs."""
    crates = crate_lines(libraries)
    copy_crates(folder, crates)
    write_crates(folder, {**crates, name: libraries})
    program = os.path.join(folder, "crates", name)
    for path, text in files.items():
        write(os.path.join(program, path), text)
    prove(program, "run")
    return os.path.join(program, "out", name)


def build_program(folder, name):
    """Makes the repository of a program of this one, proves and builds it there, and gives the path of
    what it runs."""
    crates = crate_lines([name])
    copy_crates(folder, crates)
    write_crates(folder, crates)
    crate = os.path.join(folder, "crates", name)
    prove(crate, "run")
    return os.path.join(crate, "out", name)
