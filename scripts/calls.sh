# shellcheck shell=bash disable=SC2034,SC2154
# Prints the words that run the calls of the C library over a pipe, by their checked build, which is
# compiled and kept if it is not there. A NUL is behind each word. For python/arbiter/found.py.
#
# The program is scripts/calls beside the files of bw_exports, whose calls it makes. It is no crate
# of the repository: no crate can depend on a library for C.
set -u
. scripts/current.sh
need_kit arbiterctl
. scripts/kept.sh
. scripts/checked.sh

# Chooses that program.
of_calls() {
  crate=bw_exports lists=(HANDLES scripts/calls/*.rattle) linked=()
  chosen=calls says=arbiterctl missing='C library' timed='checked calls'
  makes='./build --install DIR makes the C library'
}

# Makes the program's crate in a folder, beside a copy of what it stands on.
make_calls() { # FOLDER
  local name file own=$1/crates/arbiter_calls
  find_crates
  mkdir -p "$own" && cp HANDLES "$1" || return 1
  {
    echo "arbiter_calls: anyhow${crate_lines[0]#*:}"
    printf '%s\n' "${crate_lines[@]:1}"
  } >"$1/crates.txt"
  for name in "${crates[@]:1}"; do
    mkdir "$1/crates/$name" && cp -R "crates/$name/src" "$1/crates/$name" || return 1
  done
  cp -R crates/bw_exports/src "$own" && rm "$own/src/lib.rt" || return 1
  for file in scripts/calls/*.rattle; do
    name=${file##*/}
    cp "$file" "$own/src/${name%.rattle}.rt" || return 1
  done
  grep '^mod ' crates/bw_exports/src/lib.rt >>"$own/src/main.rt"
}

# Compiles the program and runs it some seconds in place of a subshell.
try_calls() { # FOLDER
  local number
  for ((number = 0; number < 12000; number++)); do echo weight_of_shares 1000 2; done >"$1/lines"
  make_calls "$1/copy" && cd "$1/copy/crates/arbiter_calls" && TMPDIR=$1 exec rt try <"$1/lines"
}

# Tests whether a compiled program answers as it has to.
answers_calls() { # PROGRAM
  [ "$("${run_kept[@]}" "$1" <<<'weight_of_shares 1024 2')" = 100 ]
}

of_calls
if ! find_checked; then
  echo "arbiterctl: the checked build cannot be kept on this machine; $makes" >&2
  exit 1
fi
echo "$says: in its answers 'the proved check' is the check of that build" >&2
printf '%s\0' "${run_kept[@]}" "$kept/program"
