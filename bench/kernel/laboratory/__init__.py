"""Groups on Linux in a guest beside their plans: `./test --kernel --help`.

The guests are those of tests/kernel.
"""
