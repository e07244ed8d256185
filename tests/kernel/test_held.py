"""The loop of limits in a guest, on the kernel that is there: who is stopped, and in what order."""
import itertools

import pytest

from kernel import held, layout, machine
from kernel.scenario import parse

SETTING = machine.Setting(shift=4, seconds=900)
# One processor; the demands of a period of 100 slices, and weights.
HOSTS = {
    "four tasks against one": "#: --tasks a=4\nmkdir a\nmkdir b\ndemand a 100\ndemand b 100\n",
    "small demands": "mkdir a\nwrite a cpu.weight 50\nmkdir b\nmkdir c\nwrite c cpu.weight 200\n"
                     "mkdir d\nwrite d cpu.weight 400\nmkdir e\ndemand a 100\ndemand b 30\n"
                     "demand c 5\ndemand d 45\ndemand e 12\n"}
# Who wants more than the plan gives, and orders of what groups get: 100 are 50 and 50 for the first
# host. On the second c, d and e get the 5, 45 and 12 that they want, and a and b share the other 38
# by 50 to 100.
HUNGRY = {"four tasks against one": {"a", "b"}, "small demands": {"a", "b"}}
ORDERS = {"four tasks against one": [], "small demands": ["cabd", "cebd"]}
# Rounds until the plan stands.
BEFORE = 3


def test_rounds_are_read_by_run():
    lines = ["run one", "held 1 1000000123 a 20 0 20 20 50", "x", "run two",
             "held 1 1000000456 a 90 1 100 60 60",
             "held 2 2000000456 a 9 0 9 9 18446744073709551615"]
    assert held.rounds_in(lines) == {
        "one": [{"round": 1, "at": 1000000, "path": "a", "used": 20, "hungry": False, "want": 20,
                 "plan": 20, "limit": 50}],
        "two": [{"round": 1, "at": 1000000, "path": "a", "used": 90, "hungry": True, "want": 100,
                 "plan": 60, "limit": 60},
                {"round": 2, "at": 2000000, "path": "a", "used": 9, "hungry": False, "want": 9,
                 "plan": 9, "limit": None}]}


def watched(host, way):
    """A line that begins the loop, and prints each group's cpu.max at its end."""
    line = held.loop_line(host, held.WAYS[way]).removesuffix(" &")
    files = " ".join(f"echo max {path} $(cat {layout.place(path, 'cpu.max')});"
                     for path in host.paths)
    return f"({line}; {files}) &"


@pytest.fixture(scope="module", name="told")
def told_by_a_guest(library, guests_kernel):
    """What the guest printed of each host, in the loop and in one that writes nothing."""
    scripts = []
    for name, text in HOSTS.items():
        for way in ("loop", "watched"):
            host = parse(name, text)
            script = layout.script(host, layout.Span(3, 3, has_grid=False), watched(host, way))
            scripts.append(held.begun(script, f"{name} {way}"))
    return held.lines_of(guests_kernel, machine.Board(), SETTING, scripts,
                         library.with_suffix(".a"))


def rounds(told, name, way):
    """The lines of the rounds in which the plan stands, by group."""
    found = {}
    for each in held.rounds_in(told)[f"{name} {way}"]:
        if each["round"] >= BEFORE:
            found.setdefault(each["path"], []).append(each)
    return found


def written(told, name, way):
    """What each group's cpu.max held at the end: quota, and period."""
    at = told.index(f"run {name} {way}")
    lines = itertools.takewhile(lambda line: not line.startswith("run "), told[at + 1:])
    return {words[1]: tuple(words[2:]) for words in map(str.split, lines) if words[0] == "max"}


def test_kernel_takes_all_limits(told):
    """No writing is refused."""
    assert [line for line in told if line.startswith("refused")] == []


@pytest.mark.parametrize("name", HOSTS)
def test_loop_in_a_guest(told, name):
    """Whoever wants more is hungry and stopped at the limit, and nobody else is. Groups get more in
    the order of their plans. How near they come is for bench/kernel to measure."""
    found = rounds(told, name, "loop")
    assert all(len(lines) >= 3 for lines in found.values())
    for path, lines in found.items():
        assert {each["hungry"] for each in lines} == {path in HUNGRY[name]}
        for each in lines:
            assert each["plan"] <= each["limit"] and each["used"] <= each["limit"] + 1, each
    used = {path: sum(each["used"] for each in lines) for path, lines in found.items()}
    for order in ORDERS[name]:
        assert sorted(order, key=used.get) == list(order), used


@pytest.mark.parametrize("name", HOSTS)
def test_limits_that_stand(told, name):
    """The last limits of the loop, 0 to 1/64 above the rule's; none where nothing is written."""
    found, last = written(told, name, "loop"), rounds(told, name, "loop")
    assert found.keys() == last.keys()
    for path, (quota, period) in found.items():
        least = 1000 * last[path][-1]["limit"]
        assert least <= int(quota) <= least + least // 64 and period == "100000", path
    assert set(written(told, name, "watched").values()) == {("max", "100000")}
