"""The plan beside what groups used: readings, intervals, likely causes, and how they are shown."""
