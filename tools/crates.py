"""The crates of this repository: what each stands on, in which order they can be proved, and how some of them are copied."""
import os
import shutil

ROOT = os.path.dirname(os.path.dirname(os.path.abspath(__file__)))
PROGRAM = "regblock_main"
FOLDERS_OF_A_CRATE = ("src", "specs", "proofs", "data")
FILES_OF_A_PROGRAM = ("args", "stdin", "stdout", "status")


def crates_below(root=ROOT):
    """For each crate of crates.txt, the crates of the repository that it stands on."""
    named = {}
    with open(f"{root}/crates.txt", encoding="utf-8") as lines:
        for line in lines:
            name, colon, below = line.partition("#")[0].partition(":")
            if colon:
                named[name.split()[0]] = below.split()
    return {name: [it for it in below if it in named] for name, below in named.items()}


def closure(tops, below):
    """The crates named and all that they stand on."""
    found, waiting = set(), list(tops)
    while waiting:
        name = waiting.pop()
        if name not in found:
            found.add(name)
            waiting.extend(below[name])
    return found


def lowest_first(below):
    """The crates in an order in which each comes after those that it stands on."""
    order, seen = [], set()

    def visit(name):
        if name not in seen:
            seen.add(name)
            for it in below[name]:
                visit(it)
            order.append(name)

    for name in below:
        visit(name)
    return order


def longest_chain(cost, below):
    """The chain of crates, each on the one before it, that costs most, and its cost."""
    best = {}
    for name in lowest_first(below):
        chain = max((best[it] for it in below[name]), key=lambda it: it[0], default=(0, []))
        best[name] = (chain[0] + cost[name], [*chain[1], name])
    return max(best.values(), key=lambda it: it[0], default=(0, []))


def chain_above(cost, below):
    """For each crate, what it and the dearest chain of crates above it cost."""
    above = dict(cost)
    for name in reversed(lowest_first(below)):
        for it in below[name]:
            above[it] = max(above[it], cost[it] + above[name])
    return above


def lines_of(name, root=ROOT):
    """How many lines of code, definitions and proofs a crate has: a guess at what its proof costs."""
    count = 0
    for part in ("src", "specs", "proofs"):
        for at, _, files in os.walk(f"{root}/crates/{name}/{part}"):
            for file in files:
                with open(f"{at}/{file}", "rb") as it:
                    count += it.read().count(b"\n")
    return count


def is_program(name, root=ROOT):
    return os.path.isfile(f"{root}/crates/{name}/src/main.rt")


def program_at_hand(root=ROOT):
    """The program that the gate built here, or else the one that ./rdlregs-prove did, or else the release."""
    places = (f"crates/{PROGRAM}/out/{PROGRAM}", ".build/rdlregs", "release/rdlregs-x86_64-linux")
    return next((f"{root}/{it}" for it in places if os.access(f"{root}/{it}", os.X_OK)), None)


def copy_crate(name, folder):
    """Makes a crate's folder hold what a proof and a run of it read."""
    source, target = f"{ROOT}/crates/{name}", f"{folder}/crates/{name}"
    os.makedirs(target, exist_ok=True)
    for part in FOLDERS_OF_A_CRATE:
        shutil.rmtree(f"{target}/{part}", ignore_errors=True)
        if os.path.isdir(f"{source}/{part}"):
            shutil.copytree(f"{source}/{part}", f"{target}/{part}")
    for part in FILES_OF_A_PROGRAM:
        if os.path.isfile(f"{source}/{part}"):
            shutil.copyfile(f"{source}/{part}", f"{target}/{part}")
        elif os.path.isfile(f"{target}/{part}"):
            os.remove(f"{target}/{part}")


def lay_out(wanted, folder):
    """Puts the crates wanted, and no others, into the folder, which is a repository of its own for `rt`."""
    for it in ("crates", ".git"):
        os.makedirs(f"{folder}/{it}", exist_ok=True)
    shutil.copyfile(f"{ROOT}/HANDLES", f"{folder}/HANDLES")
    with open(f"{ROOT}/crates.txt", encoding="utf-8") as lines:
        kept = [it for it in lines if it.partition(":")[0].split()[:1] and it.partition(":")[0].split()[0] in wanted]
    with open(f"{folder}/crates.txt", "w", encoding="utf-8") as it:
        it.writelines(kept)
    for name in set(os.listdir(f"{folder}/crates")) - wanted:
        shutil.rmtree(f"{folder}/crates/{name}")
    for name in wanted:
        copy_crate(name, folder)
