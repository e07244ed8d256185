# shellcheck shell=bash
# Runs the tests of tests/ by pytest. For ./test.

# Debian's python3, which has Debian's pytest, although another python3 can be first on the PATH.
python=/usr/bin/python3
test_report=out/tests.xml
# Seconds that all tests may take.
test_seconds=2400
test_folders=(tests bench/kernel)
[ -d python/tests ] && test_folders+=(python/tests)

# Debian's packages that the tests need, and their modules.
packages=(python3-pytest python3-pytest-xdist python3-hypothesis python3-jinja2 python3-rich
  python3-yaml python3-distributed python3-prometheus-client mypy python3-typeshed pyflakes3)
modules='pytest, xdist, hypothesis, jinja2, rich, yaml, distributed, prometheus_client, mypy, pyflakes'
# Packages of the same name as their command. Tests that need one that is missing are skipped.
tools=(mandoc zsh fish chromium prometheus tmux valgrind strace clang-14)

# mypy reads the types of yaml from python3-typeshed.
has_packages() {
  "$python" -c "import $modules; from importlib import metadata; metadata.version('types-PyYAML')" \
    2>/dev/null
}

# Installs what is missing if this may be done, otherwise names the command.
need_packages() {
  local tool missing=()
  has_packages || missing=("${packages[@]}")
  for tool in "${tools[@]}"; do
    command -v "$tool" >/dev/null || missing+=("$tool")
  done
  # Packages of short guests. Their kernel is had by apt-get where no earlier run has unpacked one.
  command -v qemu-system-x86_64 >/dev/null || missing+=(qemu-system-x86)
  command -v busybox >/dev/null || missing+=(busybox-static)
  # The library that clang-14 links a program with sanitizers and a fuzzer to.
  compgen -G '/usr/lib/llvm-14/lib/clang/*/lib/linux/libclang_rt.fuzzer-*.a' >/dev/null ||
    missing+=(libclang-rt-14-dev)
  # shellcheck disable=SC2206,SC2154
  command -v coqc >/dev/null && ocamlfind query zarith >/dev/null 2>&1 || missing+=($coq_packages)
  [ "${#missing[@]}" = 0 ] && return
  local words=(apt-get install -y --no-install-recommends "${missing[@]}")
  if [ "$(id -u)" = 0 ] && command -v apt-get >/dev/null; then
    echo "test: installing what the tests need: ${words[*]}" >&2
    { apt-get update && DEBIAN_FRONTEND=noninteractive "${words[@]}"; } >out/apt.log 2>&1 </dev/null
    has_packages && return
    tail -n 20 out/apt.log
  elif has_packages; then
    echo "test: some tests are skipped: sudo ${words[*]}" >&2
    return
  fi
  echo "test: a package is missing: sudo ${words[*]}" >&2
  exit 2
}

# As many files side by side as there are processors. The tests of a file stay in their order.
pytest_all() {
  rm -f "$test_report"
  timeout --kill-after=10 "$test_seconds" "$python" -m pytest "${test_folders[@]}" \
    -n "$(nproc)" --dist loadfile --junitxml="$test_report" -q </dev/null
}

# Tests that need no build and take about a minute: what is quick fails first.
pytest_quick() {
  local package=python/tests/test_package.py manual=python/tests/test_manual.py
  "$python" -B -m pytest tests/test_pages.py -q -x -k 'not readme_command' </dev/null || return
  [ -d python/tests ] || return 0
  "$python" -B -m pytest python/tests/test_{layers,interface}.py "$package"::test_{mypy,pyflakes} \
    "$package"::test_{columns,functions_are_short_and_have_comments} \
    "$manual"::test_files_are_made_from_the_help -q -x </dev/null
}

# What a checked build can show, without the tests of tests/checked/left_out.txt. Some tests wait for
# others' processes, so more workers than processors run. Modules are compiled once for all of them.
pytest_checked() {
  local processors
  processors=$(nproc)
  rm -f "$test_report"
  PYTHONDONTWRITEBYTECODE='' PYTHONPYCACHEPREFIX=$PWD/out/pycache \
    timeout --kill-after=10 "$test_seconds" "$python" -m pytest tests python/tests --checked \
    --fuzz-runs 20 -n $((processors + (processors + 1) / 2)) --dist loadgroup \
    --junitxml="$test_report" -q </dev/null
}

# ./test --checked: its last line says what was not proved.
test_checked() {
  local passed failed status crates edits
  # what is proved in Coq is left out
  local coq_packages=''
  need_kit test
  need_packages
  pytest_checked
  status=$?
  read -r passed failed < <(pytest_counts)
  [ "$status" = 0 ] || [ "$failed" != 0 ] || failed=1
  crates=$(grep -c '^[a-z].*:' crates.txt)
  edits=$(find crates/*/must-fail -name '*.edit' | wc -l)
  echo "test: it took $(in_words "$SECONDS")"
  echo "test: tests/checked/left_out.txt has what was left out; ./test runs all"
  echo "$passed passed, $failed failed on the checked build; not proved: $crates crates, nor that" \
    "their $edits wrong bodies are refused"
  [ "$failed" = 0 ]
}

# Prints the numbers of passed and failed tests. Skipped tests are neither.
pytest_counts() {
  local suite name tests=0 failures=0 errors=0 skipped=0
  suite=$(grep -o '<testsuite [^>]*>' "$test_report" 2>/dev/null)
  for name in tests failures errors skipped; do
    [[ $suite =~ \ $name=\"([0-9]+)\" ]] && printf -v "$name" '%s' "${BASH_REMATCH[1]}"
  done
  echo "$((tests - failures - errors - skipped)) $((failures + errors))"
}
