"""Variables and clauses of the step of models, as smvcheck and as Berkeley ABC make them.

Ours are counted by a program of its own, which stands here as a text, since the gate wants each `.rt` file to be proved. `rt try` runs it
unproved, in a copy of the repository: it reads all models, and prints two numbers for each.
"""
import os
import re
import shutil
import subprocess
import tempfile

HERE = os.path.dirname(os.path.abspath(__file__))
TOP = os.path.join(HERE, "..")
# The name of the program's crate.
NAME = "clause_count"
# What stands on these crates has what the program needs.
USED = ("smv_front", "bit_system")
# So many seconds may the program run.
SECONDS = 600

PROGRAM = r"""//! Prints the variables and the clauses of the first system of each model; a model ends with a byte 0.
use bit_system::build;
use smv_front::read_model;
use std::alloc::Global;
use std::io;
use std::io::{ErrorKind, Read};

// The variables and clauses of the step of a model, bad states and good ones included.
fn counted(alloc: Global, text: &[u8]) -> io::Result<String> {
    let Ok(flat) = read_model(alloc, text) else {
        return Err(io::Error::from(ErrorKind::InvalidData));
    };
    let Ok(built) = build(alloc, &flat) else {
        return Err(io::Error::from(ErrorKind::InvalidData));
    };
    let system = built.system_of(0);
    let variables = system.all_bits();
    let clauses = system.step().len() + system.bad().len() + system.good().len();
    Ok(format!(in alloc; "counted {variables} {clauses}")?)
}

fn main(rt: HostRuntime) -> io::Result<()> {
    let alloc = rt.alloc();
    let mut text = Vec::new(alloc);
    rt.stdin().read_to_end(&mut text)?;
    let mut from = 0;
    for i in 0..text.len() {
        if text[i] == 0 {
            rt.println(counted(alloc, &text[from..i])?)?;
            from = i + 1;
        }
    }
    Ok(())
}
"""


def crates_listed():
    """The lines of crates.txt by crate: the crates that each stands on."""
    with open(os.path.join(TOP, "crates.txt")) as file:
        lines = [line.split("#")[0].split(":") for line in file]
    return {line[0].split()[0]: line[1].split() for line in lines if len(line) == 2}


def write_repository(folder, name=NAME, used=USED, program=PROGRAM):
    """Writes the program to a repository of its own, beside the sources of the crates that it stands on."""
    listed = crates_listed()
    below = list(used)
    for crate in below:
        below += [other for other in listed.get(crate, []) if other not in below]
    with open(os.path.join(folder, "crates.txt"), "w") as file:
        for crate in below:
            if crate in listed:
                file.write(f"{crate}: {' '.join(listed[crate])}\n")
                sources = os.path.join("crates", crate, "src")
                shutil.copytree(os.path.join(TOP, sources), os.path.join(folder, sources))
        file.write(f"{name}: {' '.join(below)}\n")
    sources = os.path.join(folder, "crates", name, "src")
    os.makedirs(sources)
    with open(os.path.join(sources, "main.rt"), "w") as file:
        file.write(program)
    subprocess.run(["git", "init", "-q", folder], check=True)


def ours(texts):
    """The variables and clauses of each of these models."""
    with tempfile.TemporaryDirectory() as folder, tempfile.TemporaryFile() as given:
        write_repository(folder)
        for text in texts:
            given.write(text + b"\0")
        given.seek(0)
        run = subprocess.run(
            ["rt", "try", "--steps", "1", "--seconds", str(SECONDS)],
            cwd=os.path.join(folder, "crates", NAME), stdin=given, stdout=subprocess.PIPE, stderr=subprocess.PIPE, text=True,
        )
    found = [(int(variables), int(clauses)) for variables, clauses in re.findall(r"counted (\d+) (\d+)", run.stdout)]
    if len(found) != len(texts):
        raise SystemExit(f"{len(found)} of {len(texts)} models were counted: {(run.stdout + run.stderr)[-2000:]}")
    return found


def theirs(path):
    """The variables and clauses that ABC writes of an AIGER file."""
    with tempfile.TemporaryDirectory() as folder:
        written = os.path.join(folder, "step.cnf")
        words = f"read_aiger {path}; strash; comb; write_cnf {written}"
        subprocess.run(["berkeley-abc", "-c", words], stdout=subprocess.DEVNULL, stderr=subprocess.DEVNULL, check=True)
        with open(written) as file:
            variables, clauses = re.search(r"^p cnf (\d+) (\d+)", file.read(), re.MULTILINE).groups()
    return int(variables), int(clauses)
