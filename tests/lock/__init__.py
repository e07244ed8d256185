"""The lock's code beside its models: a `period` is recorded, and replayed as their events."""
