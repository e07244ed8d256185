"""Readers and writers of hosts, one module each.

A reader takes the bytes of a file, or a folder, and gives a `Model`. What it cannot take is told
in `Model.notes`, by name; only a source that is none of its kind is a fault.
"""
