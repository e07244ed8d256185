"""The number of random cases of a test."""
# The most that --fuzz-runs allows; 0 for as many as each test has.
most = 0


def cases(count, times=1):
    """So many cases of a test, or fewer by --fuzz-runs: so many times its number, where a case is
    one call."""
    return min(count, times * most or count)
