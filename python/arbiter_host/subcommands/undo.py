"""`arbiterctl undo`."""
# /// arbiterctl
# order = 11
# summary = "bring the settings before `apply` back"
# takes = ["verbose", "yes", "force"]
# description = """\
# Prints how the settings of an undo file come back. With --yes it is done and read back."""
# details = [
# """\
# A value that is neither what `apply` found nor what it wrote was set by somebody since. It is \
# told and left; --force sets it back too. A group that cannot be written costs the others \
# nothing. A file that others may change or swap is refused.""",
# ]
#
# [argument]
# name = "file"
# metavar = "FILE"
# help = "the undo file"
#
# [examples]
# "the old settings again" = "arbiterctl undo undo.json --yes"
#
# # Texts of options that are other ones here.
# [options]
# force = "also over what somebody set since `apply`"
# ///
from __future__ import annotations

import argparse

from arbiter_host.base import names, plain_files
from arbiter_host.base.output import warn
from arbiter_host.setting import apply
from arbiter_host.subcommands._steps import check_no_loop, print_steps, printing


def run(options: argparse.Namespace) -> None:
    """Prints the steps back; with --yes makes them."""
    name = names.shown(options.file)
    content = plain_files.file_bytes(options.file, is_trusted=True)
    back = apply.read_undo(content, name, options.force)
    try:
        if options.yes:
            check_no_loop(back.root, [each.folder for each in back.changes])
            with printing(back.root) as done:
                apply.undo(back, done)
        else:
            print_steps(back.root, apply.planned_steps(back.changes, back.by))
    finally:
        warn(*back.left)
