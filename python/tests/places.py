"""Where the package under test is."""
from pathlib import Path

PACKAGE = Path(__file__).resolve().parent.parent
