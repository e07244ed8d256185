"""The answers in examples/hosts/README.md are those of the command, run in that folder."""
import re
import shlex

import pytest
from places import PACKAGE

FOLDER = PACKAGE.parent / "examples/hosts"
PAGE = (FOLDER / "README.md").read_text()
BLOCKS = re.findall(r"```command\narbiterctl ([^\n]*)\n```\n\n```answer\n(.*?)```", PAGE, re.S)


@pytest.mark.parametrize("words, answer", BLOCKS, ids=[words for words, _ in BLOCKS])
def test_answers_of_real_hosts(ctl, words, answer):
    ended = ctl.ended(*shlex.split(words), cwd=FOLDER)
    assert (ended.returncode, ended.stdout.decode()) == (0, answer), ended.stderr


def test_each_file_is_used():
    """Each file stands on the page, and each kind of host in one of its commands."""
    assert len(BLOCKS) == 5
    names = {path.name for path in FOLDER.iterdir()} - {"README.md"}
    assert all(f"`{name}`" in PAGE for name in names)
