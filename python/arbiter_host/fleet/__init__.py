"""Many hosts at once, on the processors of this machine or on the workers of a Dask scheduler.

The modules in the order of the data: `hosts` finds the files, `pool` has `work` plan each host,
`answers` checks the plans here and says what they come to, and `report` shows it. `questions` puts
them together.
"""
