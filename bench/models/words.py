#!/usr/bin/env python3
"""Writes models of words and integers, each as SMV and as AIGER: words.py FOLDER [WORD ..].

With words, only the models whose names hold one of them. Each model is a circuit of bench/models/verilog at some width, with one
assertion; its name ends in `-false` where a run breaks it. NAME.aig is made by yosys, with its bad states. NAME.smv is made by yosys
too, or of the text NAME.smv beside the circuit, where that stands: those have remainders, ranges or enumerations. It needs `yosys`.
"""
import os
import shutil
import subprocess
import sys

HERE = os.path.dirname(os.path.abspath(__file__))
CIRCUITS = os.path.join(HERE, "verilog")

# To the word circuit: one memory-free module whose flip-flops all begin at a value.
WORDS = (
    "prep -top {top} -flatten; memory_map; async2sync; dffunmap; setundef -undriven -init -zero; opt_clean"
)
# From there to gates of two inputs and latches.
GATES = "techmap; opt -fast; dffunmap; aigmap; setundef -undriven -zero; opt_clean"


def models():
    """Each model: the name of its circuit, its numbers, and whether its assertion holds."""
    return [
        *[("arbiter", {"W": w}, True) for w in (8, 16, 32, 64)],
        *[("holder", {"W": w, "L": l}, True) for w, l in ((8, 3), (16, 4), (32, 5), (64, 6))],
        *[("grants", {"W": w}, False) for w in (8, 32)],
        *[("multiplier", {"W": w}, True) for w in (2, 3)],
        *[("evenness", {"W": w}, True) for w in (8, 16, 32)],
        *[("distributing", {"W": w}, True) for w in (4, 6)],
        *[("fivefold", {"W": w}, True) for w in (8, 16, 32, 64)],
        *[("square", {"W": w}, True) for w in (5, 8)],
        *[("divider", {"W": w}, True) for w in (8, 16, 32, 64)],
        *[("quotient", {"W": w}, True) for w in (2, 3)],
        *[("modulo", {"W": w}, True) for w in (5, 8)],
        *[("pointers", {"W": w}, True) for w in (3, 4)],
        *[("queue", {"W": w}, True) for w in (4, 8, 16)],
        *[("overflow", {"W": w, "D": d}, False) for w, d in ((4, 12), (6, 40))],
        *[("shifter", {"W": w, "L": l}, True) for w, l in ((4, 2), (8, 3), (16, 4))],
        *[("barrel", {"W": w, "L": l}, True) for w, l in ((8, 3), (16, 4), (32, 5))],
        *[("mirror", {"W": w}, True) for w in (16, 64)],
        *[("saturating", {"W": w, "D": d}, True) for w, d in ((8, 200), (16, 50000), (32, 3000000))],
        *[("extremes", {"W": w}, True) for w in (8, 16, 32, 64)],
        *[("parity", {"W": w}, True) for w in (8, 16, 32)],
        *[("serial", {"W": w}, True) for w in (3, 4)],
        *[("watchdog", {"W": w, "D": d}, False) for w, d in ((8, 30), (16, 100))],
        *[("sender", {"W": w}, True) for w in (8, 16, 32)],
        *[("uart", {"W": w}, True) for w in (2, 4, 8)],
        *[("register", {"W": w, "D": d}, True) for w, d in ((8, 5), (16, 4), (32, 2), (64, 3))],
        *[("account", integers(d), True) for d in (10, 100, 1000)],
        ("hours", {}, True),
        *[("tank", {**integers(d), "H": d * 4 // 5}, True) for d in (100, 1000)],
        *[("lights", integers(d), True) for d in (10, 100)],
        *[("vending", integers(d), True) for d in (10, 100)],
        *[("seats", integers(d), True) for d in (10, 100)],
        *[("race", {"D": d, "W": (2 * d).bit_length()}, False) for d in (10, 30)],
    ]


def integers(greatest):
    """The numbers of a model that counts to this one: its circuit has as many bits as that takes."""
    return {"D": greatest, "W": greatest.bit_length()}


def name_of(circuit, numbers, holds):
    """A circuit's name and its first number."""
    parts = [circuit] + [str(number) for number in list(numbers.values())[:1]]
    return "-".join(parts) + ("" if holds else "-false")


def yosys(script, folder):
    """Runs a script of yosys in a folder, and fails where it does."""
    subprocess.run(["yosys", "-q", "-p", script], cwd=folder, check=True, stdout=subprocess.DEVNULL)


def reading(circuit, numbers):
    """The commands of yosys that read a circuit at these numbers, up to the circuit of words."""
    macros = " ".join(f"-D{letter}={number}" for letter, number in numbers.items())
    return f"read_verilog -formal {macros} {circuit}.v; " + WORDS.format(top=circuit)


def by_hand(text, numbers):
    for letter, number in numbers.items():
        text = text.replace("`" + letter, str(number))
    return text


def write_one(folder, circuit, numbers, name):
    """Writes one model in both forms, but where both are there."""
    if all(os.path.exists(os.path.join(folder, name + end)) for end in (".smv", ".aig")):
        return
    text_by_hand = os.path.join(CIRCUITS, circuit + ".smv")
    written = os.path.join(folder, name + ".smv")
    shutil.copy(os.path.join(CIRCUITS, circuit + ".v"), folder)
    steps = reading(circuit, numbers)
    if os.path.exists(text_by_hand):
        with open(text_by_hand) as source, open(written, "w") as file:
            file.write(by_hand(source.read(), numbers))
    else:
        steps += f"; write_smv {name}.smv"
    yosys(f"{steps}; {GATES}; write_aiger -zinit {name}.aig", folder)
    if not os.path.exists(text_by_hand):
        with open(written) as file:
            made = file.read()
        with open(written, "w") as file:
            file.write(f"MODULE main VAR design : _{circuit};\n" + made)


def write(folder, words=()):
    """Writes the models to a folder, and gives their names."""
    if shutil.which("yosys") is None:
        sys.exit("yosys is not installed (apt-get install yosys)")
    os.makedirs(folder, exist_ok=True)
    names = []
    for circuit, numbers, holds in models():
        name = name_of(circuit, numbers, holds)
        if words and not any(word in name for word in words):
            continue
        write_one(folder, circuit, numbers, name)
        names.append(name)
    return names


if __name__ == "__main__":
    if len(sys.argv) < 2:
        sys.exit(__doc__)
    print("\n".join(write(sys.argv[1], sys.argv[2:])))
