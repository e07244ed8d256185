# shellcheck shell=bash
# Shared by ./arbiter, ./build and ./test: the native program, the C library, and whether they are
# up to date. Paths are relative to the top of the repository, where the functions are called.

. scripts/seen.sh

program=crates/arbiter/out/arbiter
# The C library without its ending, .so or .a.
library=crates/bw_exports/out/libarbiter
# The names that the shared library exports.
library_names=share/arbiter.map
# The kit's word for the processors of both, where `./build --native` chose them.
native=out/native
# Debian's packages that independent/build needs.
# shellcheck disable=SC2034
coq_packages='coq ocaml-findlib libzarith-ocaml-dev'
# The kits that pass these sources, and their logic, as README.md has them.
kits='rattle-kit-13f or rattle-kit-13b (logic dac8208d650f15bf)'

# Sets `version` to the version of the program, the library and the packages.
find_version() {
  version=$(sed -nE 's/^(pub )?const VERSION: &str = "(.*)";$/\2/p' crates/arbiter/src/version.rt)
  [ -n "$version" ] && return
  echo "crates/arbiter/src/version.rt has no line 'const VERSION: &str = \"..\";'" >&2
  return 1
}

# The two functions below choose what the other functions speak of. They set `crate`, its `made`
# files (an executable or shared library first), its `stamp`, and the `lists` and words for the
# linker (`linked`) that count as sources, and the kit's words for its processors (`cpu`).
of_program() {
  crate=arbiter made=("$program") lists=(HANDLES) linked=() stamp=$program.sources
  find_processors
}

of_library() {
  find_version || return 1
  soname=libarbiter.so.${version%%.*}
  crate=bw_exports made=("$library.so" "$library.a") lists=(HANDLES "$library_names")
  linked=("-Wl,-soname,$soname" "-Wl,--version-script=$library_names") stamp=$library.sources
  find_processors
}

# shellcheck disable=SC2034
find_processors() {
  cpu=()
  [ -f "$native" ] && mapfile -t cpu <"$native" && lists+=("$native")
  return 0
}

of_program

# Ends a command without a kit of the logic with which these sources were proved.
need_kit() { # NAME OF THE COMMAND
  local why='the command rt of the Rattle kit is not on the PATH' logic=${kits##*\(}
  if command -v rt >/dev/null 2>&1; then
    find_kit
    [[ $kit == *" ${logic%)}" ]] && return
    why="the Rattle kit on the PATH is of another logic: $kit"
  fi
  cat >&2 <<END
$1: $why.
$1: these sources need $kits: README.md, 'Build and run'.
$1: an installed program or a .deb needs no kit.
END
  exit 2
}

# Sets `kit_files` to rt and the file that tells what kit it is of, or to nothing without rt on the
# PATH.
find_kit_files() {
  local rt
  kit_files=()
  # hash searches the PATH without a process
  if hash rt 2>/dev/null; then
    rt=$(readlink -f "${BASH_CMDS[rt]}")
    kit_files=("${BASH_CMDS[rt]}" "${rt%/*/*}/KIT-ID")
  fi
}

# Sets `kit` to the line that `rt version` prints, read from the kit's file if it has one. Without
# rt it is the line of the stamp: no other kit is there.
find_kit() {
  kit=''
  find_kit_files
  if [ -f "${kit_files[1]-}" ]; then
    read -r kit <"${kit_files[1]}"
  elif [ "${#kit_files[@]}" != 0 ]; then
    kit=$(rt version </dev/null)
  elif [ -f "$stamp" ]; then
    read -r kit <"$stamp"
  fi
}

# Sets `crates` to the crate and all crates below it, `crate_lines` to their lines of crates.txt,
# and `folders` to the folders of their sources.
find_crates() {
  local -A line_of=() seen=(["$crate"]=yes)
  local all line name part at
  crates=("$crate") crate_lines=() folders=()
  mapfile -t all <crates.txt
  for line in "${all[@]}"; do
    line=${line%%#*}
    line=${line#"${line%%[![:space:]]*}"}
    [[ $line == [!:]*:* ]] && line_of[${line%%[[:space:]:]*}]=$line
  done
  for ((at = 0; at < ${#crates[@]}; at++)); do
    name=${crates[at]} line=${line_of[${crates[at]}]-}
    crate_lines+=("$line")
    for part in src specs proofs; do
      [[ -d crates/$name/$part ]] && folders+=("crates/$name/$part")
    done
    for name in ${line#*:}; do
      # a name without a line is a library of the kit
      [[ -z ${seen[$name]-} && -n ${line_of[$name]-} ]] && seen[$name]=yes && crates+=("$name")
    done
  done
}

# Prints two lines: the kit's, and a hash of all sources. Fails if a file cannot be read.
sources_now() (
  set -o pipefail
  find_kit
  find_crates
  [ -n "$kit" ] && [ -n "${folders[*]}" ] || return 1
  printf '%s\n' "$kit"
  {
    printf '%s\n' "${crate_lines[@]}" "${linked[@]}" && cat "${lists[@]}" &&
      find -L "${folders[@]}" -type f \( -name '*.rt' -o -name '*.antt' \) -print0 |
      LC_ALL=C sort -z | xargs -0 sha256sum
  } | sha256sum
)

# Prints those lines and a hash of the made files. A true stamp is this text.
stamp_now() (
  set -o pipefail
  sources_now && cat -- "${made[@]}" | sha256sum
)

# Prints the names of all files that a stamp speaks of, and of their folders: there a file comes or
# goes. It ends each by NUL.
list_names() {
  find_kit_files
  find_crates
  find -L "${folders[@]}" -print0 && printf '%s\0' "${crates[@]/#/crates/}" "${kit_files[@]}" \
    crates.txt "${lists[@]}" "${made[@]}" "$stamp" scripts/current.sh crates/arbiter/src/version.rt
}

# Looks at those files, before their hashes are compared. Fails if one is as new as the look: a
# later change could have the same time.
take_look() { # FOLDER
  local newest
  : >"$1/mark" && list_names >"$1/names" && (look "$1/names") >"$1/files" || return 1
  newest=$(grep '^[0-9]' "$1/files" | LC_ALL=C sort | tail -n 1)
  [[ ${newest%% *} < $(LC_ALL=C find "$1/mark" -printf '%C@') ]]
}

# Compares the hashes with the stamp. If they are equal, the look before them is kept.
compare_hashes() {
  local beside now kept=''
  # a folder that cannot be written costs the hashes at each call, and nothing else
  beside=$(mktemp -d "$stamp.XXXXXX" 2>/dev/null) && take_look "$beside" 2>/dev/null && kept=yes
  now=$(stamp_now) && [ "$now" = "$(<"$stamp")" ] || now=''
  if [ -n "$now" ] && [ -n "$kept" ]; then
    mv -fT "$beside/names" "$stamp.names" && mv -fT "$beside/files" "$stamp.files"
  fi
  [ -z "$beside" ] || rm -rf -- "$beside"
  [ -n "$now" ]
}

# Tests whether the made files are there, and made by this kit from these sources. The hashes are
# compared only if a file is another than at the last comparison.
is_current() {
  [ -x "${made[0]}" ] && [ -f "$stamp" ] && { is_as_seen "$stamp" || compare_hashes; }
}

forget_stamp() {
  rm -f "$stamp" "$stamp.names" "$stamp.files"
}

# Stamps the files that were just made, unless sources were changed meanwhile.
write_stamp() { # LINES of sources_now before they were made
  local now beside
  if [ -z "$1" ] || ! now=$(sources_now) || [ "$now" != "$1" ]; then
    cat >&2 <<END
${made[0]} does not count as up to date: sources were changed while it was made, or cannot be read
END
    return 1
  fi
  # a parallel ./arbiter sees the old stamp or the new one, and no part of one
  beside=$(mktemp "$stamp.XXXXXX") || return 1
  stamp_now >"$beside" && mv -fT "$beside" "$stamp" && return
  rm -f "$beside"
  return 1
}
