# shellcheck shell=bash disable=SC2034,SC2154
# Makes what tests run where nothing is proved, in out/checked: `arbiter`, the checked build of the
# program, and libarbiter.so and libarbiter.a, whose calls a checked build of the calls answers.
# tests/shared_fixtures.py calls it, with `program` or `library` for one of the two alone. Several
# runs at once may make the same files: each has names of its own until a file is whole.
set -u
. scripts/current.sh
need_kit test
. scripts/kept.sh
. scripts/checked.sh
folder=$PWD/out/checked
mkdir -p "$folder" || exit 1

# Writes a script that runs the words of standard input, with a NUL behind each.
write_script() { # FILE
  local words
  mapfile -d '' words
  [ "${#words[@]}" != 0 ] || return 1
  { printf '#!/bin/sh\nexec' && printf ' %q' "${words[@]}" && printf ' "$@"\n'; } >"$1.new.$$" &&
    chmod 755 "$1.new.$$" && mv -f "$1.new.$$" "$1"
}

# The native program stands in the place of the checked build where it is up to date.
make_program() {
  if is_current; then
    printf '%s\0' "$PWD/$program" | write_script "$folder/arbiter"
  else
    find_checked && printf '%s\0' "${run_kept[@]}" "$kept/program" | write_script "$folder/arbiter"
  fi
}

make_tests_library() {
  local cc=("${CC:-cc}" -std=c11 -O1 -fPIC -Wall -Wextra -Wpedantic -Werror -pthread)
  local source=tests/checked/library.c new=$folder/new.$$
  bash scripts/calls.sh | write_script "$folder/calls" || return 1
  cc+=("-DPROGRAM=\"$folder/calls\"")
  find_version || return 1
  "${cc[@]}" -shared "-Wl,-soname,libarbiter.so.${version%%.*}" \
    "-Wl,--version-script=$library_names" -o "$new.so" "$source" &&
    "${cc[@]}" -c -o "$new.o" "$source" && ar rcs "$new.a" "$new.o" && rm -f "$new.o" &&
    mv -f "$new.so" "$folder/libarbiter.so" && mv -f "$new.a" "$folder/libarbiter.a"
}

case ${1-both} in
  program) make_program ;;
  library) make_tests_library ;;
  *)
    make_program &
    began=$!
    make_tests_library
    status=$?
    wait "$began" && [ "$status" = 0 ]
    ;;
esac
