"""The crates of crates.txt. Read at the top of the repository."""


def crates() -> dict[str, list[str]]:
    """Each crate, and the crates of the repository that its line names."""
    found = {}
    with open("crates.txt", encoding="utf-8") as lines:
        for line in lines:
            name, _, named = line.partition("#")[0].partition(":")
            if name.split():
                found[name.split()[0]] = named.split()
    return {name: [each for each in named if each in found] for name, named in found.items()}


def may_wait() -> dict[str, int]:
    """The number of functions that may wait, of each crate whose line gives it."""
    found = {}
    with open("crates.txt", encoding="utf-8") as lines:
        for line in lines:
            words = line.partition("#")[0].partition(":")[0].split()
            for word in words[1:]:
                name, _, number = word.partition("=")
                if name == "may_wait":
                    found[words[0]] = int(number)
    return found


def with_all_below(name: str) -> list[str]:
    """A crate and all crates below it."""
    stands_on, waiting = crates(), [name]
    found: list[str] = []
    while waiting:
        each = waiting.pop()
        if each not in found:
            found.append(each)
            waiting += stands_on[each]
    return found
