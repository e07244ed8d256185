"""The loop on a model of a host: two CPUs that are shared out by weights under what limits allow.

It is exact, as Linux is not: what is lost there is lost by the limits alone."""
import pytest
from held import FREE, World

CPUS, SLICES = 2, 100
# Groups by name: weight and tasks. flip works in some seconds alone.
FLIPPING = {"flip": (200, 2), "a": (100, 2), "b": (100, 1)}
STEADY = {"a": (100, 2), "b": (100, 1), "c": (200, 2)}


def shared_out(weights, most):
    """The CPUs that each group has, by weights, and no more than its most."""
    had, open_, left = dict.fromkeys(most, 0.0), set(most), float(CPUS)
    while open_:
        whole = sum(weights[each] for each in open_)
        full = {each for each in open_ if most[each] <= left * weights[each] / whole}
        had |= {each: most[each] if each in full else left * weights[each] / whole
                for each in full or open_}
        left -= sum(had[each] for each in full)
        open_ = open_ - full if full else set()
    return had


class SharedHost(World):
    """A tree whose groups have what they want, as far as limits and weights allow."""

    def __init__(self, folder, groups, wants):
        super().__init__(folder, [(each, weight, FREE) for each, (weight, _) in groups.items()],
                         "none")
        self.groups, self.wants, self.second = groups, wants, 0
        self.served = self.by_weights = 0.0
        self.tasks = {each: [(at, [0, 0]) for at in range(1000 * place, 1000 * place + count)]
                      for place, (each, (_, count)) in enumerate(groups.items(), 1)}
        for each, tasks in self.tasks.items():
            (self.tree / each / "cgroup.threads").write_text("".join(f"{at}\n" for at, _ in tasks))
            for at, times in tasks:
                (folder / f"proc/{at}").mkdir(parents=True)
                self.tell(at, times, 0, 0)

    def tell(self, at, times, ran, waited):
        """A task ran and waited for parts of a second."""
        times[:] = times[0] + int(ran * 10**9), times[1] + int(waited * 10**9)
        (self.tree.parent / f"proc/{at}/schedstat").write_text(f"{times[0]} {times[1]} 1\n")

    def limit_of(self, path):
        """The CPUs that a limit allows."""
        quota, period = self.maximum(path).split()
        return CPUS if quota == "max" else int(quota) / int(period)

    def step(self):
        """A second."""
        weights = {each: weight for each, (weight, _) in self.groups.items()}
        want = {each: min(self.wants(each, self.second), count)
                for each, (_, count) in self.groups.items()}
        had = shared_out(weights, {each: min(want[each], self.limit_of(each)) for each in want})
        self.served += sum(had.values())
        self.by_weights += sum(shared_out(weights, want).values())
        for each, tasks in self.tasks.items():
            lacks = want[each] - had[each] > 0.005
            ran = had[each] / len(tasks)
            for at, times in tasks:
                self.tell(at, times, ran, 1 - ran if lacks else 0)
            stopped = lacks and had[each] > 0.985 * self.limit_of(each)
            self.uses(each, round(had[each] * SLICES), int(stopped), 10**6 if lacks else 0)
        self.second += 1


@pytest.mark.parametrize("groups, wants, rounds, least, most", [
    # who always wants all, and who wants less than there is
    (STEADY, lambda *_: 2, 90, 0.999, 1), (STEADY, lambda *_: 0.5, 90, 0.999, 1),
    # one works in one second of four, and nobody else wants anything
    (STEADY, lambda each, second: 2 * (each == "c" and second % 4 == 0), 90, 0.999, 1),
    # limits come a round late where one works in each other second, or third one: it is let go
    (FLIPPING, lambda each, second: 2 * (each != "flip" or second % 2), 60, 0.75, 0.8),
    (FLIPPING, lambda each, second: 2 * (each != "flip" or second % 3 == 0), 60, 0.8, 0.85),
    # in each tenth second they cost a twentieth
    (FLIPPING, lambda each, second: 2 * (each != "flip" or second % 10 == 0), 90, 0.94, 0.96)])
def test_parts_served(engine, folder, capsys, groups, wants, rounds, least, most):
    """The part of what weights alone serve in ninety seconds, or until one is let go: all from then
    on, and the others are held."""
    model, part = SharedHost(folder, groups, wants), []

    def step():
        model.step()
        part.append((model.served, model.by_weights))
    lines = model.run(model.loop(engine, folder / "undo"), *[step] * 90)
    assert len(lines) == 90 and not (folder / "undo").exists()
    served, by_weights = part[rounds - 1]
    assert least <= served / by_weights <= most
    assert model.served - part[-20][0] > 0.999 * (model.by_weights - part[-20][1]) or rounds == 90
    assert capsys.readouterr().err.count("flip: held no longer: ") == (rounds < 90)
    assert (lines[-1][1]["a"] != FREE) == (lines[-1][0]["held"] > 0)
    assert {model.maximum(each) for each in groups} == {FREE}
