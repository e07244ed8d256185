"""Tests of the program, the C library, the scripts and the documents, for pytest 7.2 or later.

    /usr/bin/python3 -m pytest tests                         all tests
    /usr/bin/python3 -m pytest tests/test_worked.py -k job   those of a file whose names have a word
    /usr/bin/python3 -m pytest tests --program PATH --library PATH -q

Conventions:

- Test files are `tests/test_*.py`. Other modules of this folder are helpers or tools.
- shared_fixtures.py has what tests run on: `program` (a `Program`), `command` (`./arbiter`),
  `library` (path of the shared C library), `refusing` (the library of refuse.c), `scratch` (an
  empty folder, a `Path`).
- support.py has the only helpers of their kind: `ROOT`, `same`, `run`, `Program`, `Talk`, `each`.
- Each process has a time limit: `run`, `Program.run` and `Talk` kill it with all its children.
- One case is one test. Cases of a table are parameters with ids. Cases that are read from files
  come from `pytest_generate_tests`, so that an import does no work.
- A case that this machine cannot try is skipped, with its reason. Nothing else is skipped.
- Expected values are worked by hand or by plan_model.py, never copied from the program.
- Random cases are as many as `chances.cases` says: few with --fuzz-runs.
- Lines have at most 100 columns, tables excepted. pyflakes3 finds nothing.
- A folder of tests elsewhere has a conftest.py that puts this folder on `sys.path` and has the
  line below. Its tests run in the same call: `pytest tests python/tests`.
"""
pytest_plugins = ["shared_fixtures"]
