"""`arbiterctl apply`."""
# /// arbiterctl
# order = 10
# summary = "set weights and limits on a host; prints without --yes"
# forms = ["text", "kubectl", "dropin", "compose", "slurm"]
# takes = ["output", "verbose", "set", "yes", "root", "by", "undo", "kind", "node", "node_weights",
#          "strict", "cpus", "library"]
# description = """\
# Prints how the settings of BEFORE become those of AFTER on a host with cgroup v2, each with what \
# is there before. With --yes it is done, after an undo file was written, and read back."""
# details = [
# """\
# Each file is read first. If one does not hold what BEFORE says, nothing is changed. The undo \
# file is written and synced before the first change. A burst is lowered before its quota, and \
# raised after it. An interruption at any point can be undone. With --yes the steps are printed \
# that were made.""",
# """\
# Nothing outside --root is opened for writing, no symbolic link is followed below it, and no file \
# is made there. Each group is open from the first reading to the last writing. If BEFORE is a \
# tree, a group that was made again since it was read is refused. A unit is set only if its group \
# is the folder that changes. A file that somebody sets between the reading and the writing ends \
# it there. A group that `hold` holds is refused.""",
# "The JSON of pods and that of their node, side by side, are one source.",
# """\
# With -o the change is written as files: `dropin` of units, `kubectl` patches of what owns pods, \
# `compose` overrides, or `slurm` limits of users. What a form cannot say is refused by name, and \
# nothing is written. Files are new, or such that -o wrote; no link is \
# followed, and a folder that others may change is refused.""",
# ]
#
# [argument]
# name = "source"
# nargs = "+"
# metavar = "BEFORE [AFTER]"
# help = "sources, as of explain"
#
# [examples]
# "what would be done" = "arbiterctl apply host.script --set web.service.weight=200"
# "doing it" = "arbiterctl apply host.script --set web.service.weight=200 --yes --undo undo.json"
# "a drop-in for review" = """\
# arbiterctl apply host.script --set web.service.weight=200 -o dropin=units/"""
#
# # Texts of options that are other ones here.
# [options]
# output = """\
# write the change in a form to be reviewed and merged, to a file or a folder: WORDS; nothing of \
# the host is changed"""
# ///
from __future__ import annotations

import argparse
import shlex
import time

from arbiter_host import exports
from arbiter_host import options as table
from arbiter_host.base import output, safe_files
from arbiter_host.base.faults import UsageFault
from arbiter_host.base.output import Output
from arbiter_host.base.plan import engine_of
from arbiter_host.records import source_options
from arbiter_host.setting import apply
from arbiter_host.sources import change, load
from arbiter_host.subcommands._steps import check_no_loop, print_steps, printing


def write_form(to: Output, draft: exports.Draft) -> None:
    documents = exports.documents(to.form, draft)
    output.warn(*draft.told)
    if not documents:
        output.say("no change: nothing is written")
    for path in exports.write(to.path, documents) if documents else ():
        output.say(f"wrote {path}")
    output.warn(*apply.only_in_one(draft.before, draft.after, draft.moved))


def run(options: argparse.Namespace) -> None:
    """Prints the steps from one source to another; with --yes makes them."""
    outputs = table.outputs(options)
    forms = [each for each in outputs if each.form != "text"]
    if forms and not {"yes", "undo", "by"}.isdisjoint(options.given):
        raise UsageFault("-o FORM writes files for review alone: without --yes, --by and --undo")
    if any(each.form == "text" and each.path != "-" for each in outputs):
        raise UsageFault("-o text: the steps are printed on standard output")
    if any(map(change.is_host, options.set)):
        raise UsageFault("--set: apply changes settings of groups, and no host")
    # (what groups ask for has no part in a change: nothing is waited for)
    source = source_options(options, want="busy", has_settings_alone=True, tree=options.root)
    sources = load.sources(source, load.opened(source, options.source))
    if len(sources) > 2 or (len(sources) == 1) != bool(options.set):
        raise UsageFault("apply takes BEFORE and AFTER, or BEFORE and --set")
    by = engine_of(options.library, changes=options.yes)
    models = [load.model_of(source, files, by.library) for files in sources]
    after = change.warned(models[-1], change.changed(models[-1], options.set))
    root, way = safe_files.Root(options.root), apply.By(options.by)
    for each in forms:
        write_form(each, exports.Draft(models[0], after, root, by.library, source.runtime))
    if len(forms) < len(outputs):
        set_host(options, apply.changes(models[0], after, root), root, way)


def set_host(options: argparse.Namespace, asked: tuple[list[apply.Change], list[str]],
             root: safe_files.Root, way: apply.By) -> None:
    """Prints the steps of some changes; with --yes makes them."""
    changes, left = asked
    check_no_loop(root, [each.folder for each in changes] if options.yes else [])
    steps = apply.planned_steps(changes, way)
    output.warn(*left, *(apply.passing(steps) if way is apply.By.PERSISTENT else []))
    if not options.yes or not changes:
        print_steps(root, steps)
        return
    undo = options.undo or f"arbiter-undo-{time.strftime('%Y%m%d-%H%M%S')}.json"
    back = f"to undo: arbiterctl undo {shlex.quote(undo)} --yes"
    with printing(root) as done:
        try:
            apply.make(root, changes, way, undo, done)
        except KeyboardInterrupt:
            output.say(f"interrupted after {len(done)} of {len(steps)} steps; {back}")
            raise
        output.say(f"done and read back; {back}")
