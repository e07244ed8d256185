"""Makes the files of a fleet, and asks it without the command."""
import random

import reading
from arbiter_host.fleet import hosts, questions
from arbiter_host.fleet.work import Action, Job
from arbiter_host.sources.source_options import SourceOptions


def script(number, groups):
    """The script of a host with so many groups, in slices of `top` and groups below them."""
    dice = random.Random(number)
    lines = [f"# arbiter run --processors {dice.choice((4, 8, 16, 32))} --slice 1000"]
    for top in range(max(groups // 50, 1)):
        lines += [f"mkdir t{top}", f"write t{top} cpu.weight {dice.randint(1, 500)}"]
        for below in range(min(groups, 50) - 1):
            path = f"t{top}/g{below}"
            lines += [f"mkdir {path}", f"write {path} cpu.weight {dice.randint(1, 500)}"]
            if below % 3 == 0:
                quota = dice.randint(10000, 300000)
                lines += [f"write {path} cpu.max {quota}",
                          f"write {path} cpu.max.burst {quota // 2}"]
            lines.append(f"demand {path} {dice.randint(0, 160)}")
    return "".join(f"{line}\n" for line in lines)


def make(folder, count, groups):
    """A folder with so many hosts."""
    folder.mkdir(exist_ok=True)
    for number in range(count):
        (folder / f"host-{number:05}.script").write_text(script(number, groups))
    return folder


def make_demands(folder, count, samples):
    """A folder with the demands of so many hosts over time."""
    folder.mkdir(exist_ok=True)
    for number in range(count):
        dice = random.Random(number)
        rows = [f"{at},{dice.random() * 2:.2f},{dice.random() * 3:.3f}\n" for at in range(samples)]
        (folder / f"host-{number:05}.csv").write_text("time,t0/g0,t0/g3\n" + "".join(rows))
    return folder


def of(path, **words):
    """The fleet of a path; None where it is one host."""
    data = None if path.is_dir() else path.read_bytes()
    return hosts.fleet_in(SourceOptions(**words), [(str(path), data)], reading.Planner)


def asked(path, calls, action=Action.PLAN, workers=0, **words):
    """The answers of the hosts of a path by name, and the hosts that have none."""
    job = Job(action, SourceOptions(), library=calls.path, **words)
    found, missing = questions.asked(questions.Planners(workers), job, of(path))
    return {host.name: host.answer for host in found}, dict(missing)
