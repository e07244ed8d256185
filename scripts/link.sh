# shellcheck shell=bash disable=SC2154
# Links what `of_program` or `of_library` chose, over what was proved. For ./build and ./test.

link_made() {
  check_first && "link_$crate"
}

# Checks the crate in several processes, each of which may take 2 GB: what links it would prove it in
# one, and takes over what was checked.
check_first() {
  local free jobs processors
  free=$(sed -nE 's/^MemAvailable: +([0-9]+) kB$/\1/p' /proc/meminfo) jobs=$((free / 2097152))
  processors=$(grep -c '^processor' /proc/cpuinfo)
  [ "$jobs" -le "$processors" ] || jobs=$processors
  (cd "crates/$crate" && rt check --jobs "$((jobs > 1 ? jobs : 1))" </dev/null)
}

# `rt run` also runs the program: help prints its text and changes nothing.
link_arbiter() {
  (cd crates/arbiter && rt run "${cpu[@]}" -- --help </dev/null)
}

# Links the libraries from the archive of the crate, and the kit's C that it needs at run time.
link_bw_exports() {
  local kit_folder bin runtime folder status archive=crates/bw_exports/out/libbw_exports.a
  kit_folder=$(readlink -f "$(command -v rt)")
  kit_folder=${kit_folder%/*/*} bin=$kit_folder/toolchain/bin runtime=$kit_folder/c/liblibc_c.a
  (cd crates/bw_exports && rt lib "${cpu[@]}" </dev/null) || return 1
  folder=$(mktemp -d crates/bw_exports/out/link.XXXXXX) || return 1
  "$bin/llvm-ar" qcL "$folder/libarbiter.a" "$archive" "$runtime" &&
    "$bin/clang" -shared -fuse-ld=lld "${linked[@]}" -o "$folder/libarbiter.so" \
      -Wl,--whole-archive "$archive" -Wl,--no-whole-archive "$runtime" &&
    mv -f "$folder/libarbiter.so" "$folder/libarbiter.a" "${library%/*}"
  status=$?
  rm -rf -- "$folder"
  return "$status"
}
