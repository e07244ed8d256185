"""Fixtures of the laboratory's tests: those of tests/."""
import sys
from pathlib import Path

HERE = Path(__file__).resolve().parent
sys.path[:0] = [str(HERE), *(str(HERE.parents[1] / name) for name in ("tests", "python"))]
pytest_plugins = ["shared_fixtures"]
