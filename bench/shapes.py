"""Trees that are measured: their groups by shape and size, and the lines of a script for each."""
import random
from collections.abc import Callable, Iterable

DEPTHS = [8, 32, 64]
# A round of these has a line for each group (demand: for each leaf).
OF_EACH = ["mkdir", "demand", "write", "read"]
# A round of these is one line, or one text.
OF_ALL = ["plan", "total", "cert", "report", "period", "check"]
COMMANDS = OF_EACH + OF_ALL
# A turn of these is an edit, and then a question about all groups. `write` sets a weight, `max` a
# limit, `demands` the demand of each leaf.
EDITS = ["demand;plan", "write;plan", "max;plan", "write;total", "write;cert", "demands;period"]


def flat(groups: int) -> list[str]:
    return [f"g{number}" for number in range(groups - 1)]


def pairs(groups: int) -> list[str]:
    half = (groups - 1) // 2
    return [f"g{number}" for number in range(half)] + [f"g{number}/x" for number in range(half)]


def chains(depth: int) -> Callable[[int], list[str]]:
    return lambda groups: [f"c{at // depth}" + "/s" * (at % depth) for at in range(groups - 1)]


def chain_with_siblings(groups: int) -> list[str]:
    """One chain of 64 groups. Each has as many siblings, without children."""
    paths: list[str] = []
    above = ""
    for _ in range(64):
        paths += [f"{above}b{number}" for number in range(groups // 64 - 1)] + [f"{above}s"]
        above += "s/"
    return paths[: groups - 1]


def at_random(groups: int) -> list[str]:
    """Seven of ten groups are below one of the 200 before them, the others below the root.

    The depth is at most 25.
    """
    chosen = random.Random(7)
    paths: list[str] = []
    for number in range(groups - 1):
        above = chosen.choice(paths[-200:]) if paths and chosen.random() < 0.7 else ""
        paths.append(f"{above}/r{number}" if above and above.count("/") < 24 else f"r{number}")
    return paths


SHAPES: dict[str, Callable[[int], list[str]]] = {
    "flat": flat, "pairs": pairs, **{f"chains of {depth}": chains(depth) for depth in DEPTHS},
    "chain of 64 with siblings": chain_with_siblings, "random": at_random,
}
# The end of a shape's name where each third leaf was removed, and made again as it was.
AGAIN = ", a third made again"


class Tree:
    """The lines that make a shape with a number of groups, and the lines that are measured on it.

    The number counts the root. Demands add up to about one and a half times the 64000 slices.
    Limits are up to four times a demand. So the work is of one kind in all sizes.
    """

    def __init__(self, shape: str, groups: int) -> None:
        chosen = random.Random(11)
        self.paths = SHAPES[shape.removesuffix(AGAIN)](groups)
        above = {path.rpartition("/")[0] for path in self.paths}
        self.leaves = leaves = [path for path in self.paths if path not in above]
        self.middle = middle = 96000 / len(leaves)
        mkdir = [f"mkdir {path}" for path in self.paths]
        write = [f"write {path} cpu.weight {chosen.randint(1, 10000)}" for path in self.paths]
        demand = [f"demand {path} {chosen.randint(1, round(2 * middle))}" for path in leaves]
        limited = chosen.sample(self.paths, len(self.paths) // 8)
        limits = [f"write {path} cpu.max {chosen.randint(1, round(4 * middle))}000 1000000"
                  for path in limited]
        read = [f"read {path} cpu.max" for path in self.paths]
        self.made = [*mkdir, *write, *demand, *limits]
        if shape.endswith(AGAIN):
            gone = dict.fromkeys(leaves[::3])
            again = [line for line in self.made if line.split(" ")[1] in gone]
            self.made += [f"rmdir {path}" for path in gone] + again
        self.rounds = {"mkdir": mkdir, "demand": demand, "write": write, "read": read}
        self.rounds |= {command: [command] for command in OF_ALL}

    def edited(self, work: str, turns: int) -> list[str]:
        """The lines of so many turns of an edit and a question."""
        edit, _, question = work.partition(";")
        chosen = random.Random(13)
        return [line for _ in range(turns) for line in (*self.edits(edit, chosen), question)]

    def edits(self, edit: str, chosen: random.Random) -> list[str]:
        """The lines of an edit: of a leaf or group by chance, or of all leaves."""
        def slices(times: int) -> int:
            return chosen.randint(1, round(times * self.middle))

        if edit == "demands":
            return [f"demand {leaf} {slices(2)}" for leaf in self.leaves]
        if edit == "demand":
            return [f"demand {chosen.choice(self.leaves)} {slices(2)}"]
        path = chosen.choice(self.paths)
        if edit == "max":
            return [f"write {path} cpu.max {slices(4)}000 1000000"]
        return [f"write {path} cpu.weight {chosen.randint(1, 10000)}"]


def host(processors: int) -> list[str]:
    """The words of a run. 64 processors are a capacity of 64000 slices of 1 ms."""
    return ["run", "--processors", str(processors), "--period", "1000000", "--slice", "1000"]


def text_of(lines: Iterable[str]) -> bytes:
    return "".join(f"{line}\n" for line in lines).encode()
