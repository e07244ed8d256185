"""The fault that ends the command."""
from __future__ import annotations


class KernelFault(Exception):
    """What cannot be had or run, in one line."""
