"""The real files in a guest: texts that are written, what they show, import, apply and undo.

Apply and undo are skipped without KVM.
"""
import os

import pytest

from kernel import machine, planned, real_apply, real_files
from kernel.scenario import parse

SETTING = machine.Setting(shift=5, seconds=1800)
# The program takes any quota up to 10^15, the kernel up to 2^44 - 1 microseconds.
ONLY_HERE = {("cpu.max", f"{real_files.GREATEST + 1} 100000"),
             ("cpu.max", "1000000000000000 1000000")}


@pytest.fixture(scope="module", name="found")
def found_in_a_guest(program, guests_kernel):
    """What the real files of a guest showed."""
    planned.use(program.path)
    return real_files.shown_by(guests_kernel, SETTING)


@pytest.fixture(scope="module", name="phases")
def phases_in_a_guest(guests_kernel):
    """What `apply` and `undo` did to the real files of a guest."""
    if not machine.is_quick() and machine.ALL not in os.environ:
        pytest.skip("no KVM that boots a guest, so it takes minutes: ./test --kernel --files")
    setting = machine.Setting(is_kvm=True, seconds=900) if machine.is_quick() else SETTING
    return real_apply.shown_by(guests_kernel, setting)


def test_kernel_takes_what_the_program_takes(found):
    """All texts but the greatest quotas are taken or refused alike, and then read alike."""
    assert [(file, text) for file, text, *_ in found.texts] == real_files.TEXTS
    answers = real_files.by_program(real_files.TEXTS)
    differ = {text[:2] for text, answer in zip(found.texts, answers) if text[2:] != answer}
    assert differ == ONLY_HERE


def test_import_gives_back_the_script(found, tmp_path):
    """The script of the tree's copy sets what the script that made it set."""
    tree = real_files.unpacked(found, tmp_path)
    wanted = real_files.effective(parse("tree", real_files.TREE))
    assert real_files.settings(tree) == wanted
    assert real_files.effective(real_files.imported(tree)) == wanted


OLD = real_files.effective(parse("tree", real_apply.TREE))
NEW = {path: ("7", "20000 100000", "10000") if path[0] == "a" else
       (OLD[path][0], "80000 100000", "80000") if path[0] == "b" else OLD[path] for path in OLD}
NEW |= {"pod": ("1", "max 100000", "0"), "pod/one": ("10000", "max 100000", "0"),
        "pod/two": ("100", "10000 1000000", "0")}
KILLED = -9


def settings_of(phase):
    """The settings of a phase, without groups that come and go."""
    return {path: found for path, found in phase.groups.items() if not path.startswith("come")}


@pytest.mark.parametrize("name, wanted", [
    ("made", OLD), ("export", OLD), ("print", OLD), ("apply", NEW), ("undo", OLD),
    ("undone a00", OLD), ("undone a13", OLD), ("undone b00", OLD), ("apply again", NEW),
    ("undone again", OLD), ("churn import", OLD), ("churn apply", NEW), ("churn undo", OLD),
])
def test_real_files_are_applied_and_undone(phases, name, wanted):
    """The kernel takes each write in its order, and its files read back as planned."""
    assert (phases[name].status, settings_of(phases[name])) == (0, wanted)


@pytest.mark.parametrize("name", ["killed a00", "killed a13", "killed b00", "killed undo"])
def test_killed_in_mid_way(phases, name):
    """Some groups have new settings and others the old ones; each file has one of the two."""
    found = settings_of(phases[name])
    assert phases[name].status == KILLED
    assert OLD != found != NEW
    for path, files in found.items():
        assert all(now in (old, new) for now, old, new in zip(files, OLD[path], NEW[path])), path


def test_groups_come_and_go_meanwhile(phases):
    """Others were made and removed all the time, and some that `apply` knows were gone."""
    assert phases["churn undo"].rounds > 10
    left = {path: files for path, files in OLD.items() if path != "a05"}
    undone, refused = phases["undo without it"], phases["apply without it"]
    assert (undone.status, undone.groups) == (0, left)
    assert "arbiterctl: warning: a05: the group is gone, nothing of it is undone" in undone.said
    assert (refused.status, refused.groups) == (1, left)
    assert "arbiterctl: a05: is gone" in refused.said
