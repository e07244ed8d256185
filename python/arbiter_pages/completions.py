"""Completions of arbiterctl for bash, zsh and fish. Their shapes are in templates/."""
from __future__ import annotations

from arbiter_host.subcommands import every
from arbiter_pages.words import HELP, Word, environment

REMARK = "# Made from the help of arbiterctl by python/arbiter_pages; a test compares them."
MAIN = (HELP, Word(("-V", "--version"), "", (), "print the version"))


def zsh_text(text: str) -> str:
    """A text inside the brackets of a word of zsh's _arguments, in single quotes."""
    for letter in "\\[]:":
        text = text.replace(letter, "\\" + letter)
    return text.replace("'", "'\\''")


def zsh_value(word: Word) -> str:
    """The value of a word, as _arguments takes it."""
    if word.values:
        return f":{zsh_text((word.value or 'value').lower())}:({' '.join(word.values)})"
    if word.is_file:
        return f":{zsh_text(word.value.lower())}:_files"
    return f":{zsh_text(word.value.lower())}: " if word.takes_value else ""


def zsh_word(word: Word) -> str:
    if not word.names:
        return f"'{'*' if word.is_many else ':'}{zsh_value(word)}'"
    if "--help" in word.names or "--version" in word.names:
        return f"'(- *)'{{{','.join(word.names)}}}'[{zsh_text(word.help)}]'"
    many = "*" if word.is_many else ""
    mark = "=" if word.takes_value else ""
    flags = [f"{name}{mark if name.startswith('--') else '+' if mark else ''}"
             for name in word.names]
    tail = f"[{zsh_text(word.help)}]{zsh_value(word)}'"
    if len(flags) == 1:
        return f"'{many}{flags[0]}{tail}"
    others = repr("*") if many else f"'({' '.join(word.names)})'"
    return f"{others}{{{','.join(flags)}}}'{tail}"


def fish_text(text: str) -> str:
    """A text in single quotes of fish."""
    return "'" + text.replace("\\", "\\\\").replace("'", "\\'") + "'"


def fish_option(word: Word) -> str:
    names = " ".join(f"-l {name[2:]}" if name.startswith("--") else f"-s {name[1:]}"
                     for name in word.names)
    value = " -r -F" if word.is_file else " -x" if word.takes_value else ""
    offered = f" -a {fish_text(' '.join(word.values))}" if word.values else ""
    return f"{names}{value}{offered} -d {fish_text(word.help)}"


def completions() -> dict[str, str]:
    """All completions by the names of their files."""
    made = environment()
    made.filters |= {"zsh_text": zsh_text, "zsh_word": zsh_word, "fish_text": fish_text,
                     "fish_option": fish_option, "flags": lambda words: [
                         name for word in words for name in word.names]}
    return {name: made.get_template(name).render(remark=REMARK, main=MAIN, subcommands=every())
            for name in ("arbiterctl.bash", "_arbiterctl", "arbiterctl.fish")}
