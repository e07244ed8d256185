"""The loop that holds the plan on a host, by limits of each round or by the scheduler."""
