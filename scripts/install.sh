# shellcheck shell=bash disable=SC2154
# Installs the program, the C library, arbiterctl and what belongs to them. For ./build --install.

# The folder of the Python packages, the packages, and the place of that folder below DIR.
python=python packages=(arbiter arbiter_host) python_place=lib/arbiter
# The man pages of arbiterctl, whose names stay, and their place below DIR.
pages=(share/man/*.1) pages_place=share/man/man1

# The checker and the program for scripts that are proved in Coq. They are installed where Coq was
# there to make them.
checker=out/independent/arbiter-check second=out/independent/arbiter-script

# Makes both, if Coq and the source are there. Otherwise it names what is missing, and removes those
# that may be of other sources.
make_checker() {
  [ -x independent/build ] || return 0
  if ! command -v coqc >/dev/null || ! ocamlfind query zarith >/dev/null 2>&1; then
    rm -f -- "$checker" "$second"
    echo "build: no arbiter-check without Coq: apt-get install $coq_packages" >&2
    return 0
  fi
  independent/build "${checker%/*}" >&2
}

# The scheduler of `hold --by scheduler`. It is installed where what makes it was there.
scheduler=out/scheduler/arbiter-scheduler

# Makes the scheduler, if what compiles it is there and new enough. Otherwise it says what lacks, and
# removes a scheduler that may be of other sources.
make_scheduler() {
  local lacks
  [ -f scheduler/Makefile ] || return 0
  if ! lacks=$(scheduler/needs); then
    rm -f -- "$scheduler"
    echo "build: no arbiter-scheduler: $lacks" >&2
    return 0
  fi
  make -C scheduler OUT="$PWD/${scheduler%/*}" >&2
}

# Installed files: a file of the clone or the target of a link, its place below DIR, and its mode
# or the word link.
find_installed() {
  of_library
  installed=(
    "$program" bin/arbiter 755
    "$library.so" "lib/libarbiter.so.$version" 755
    "libarbiter.so.$version" "lib/$soname" link
    "$soname" lib/libarbiter.so link
    "$library.a" lib/libarbiter.a 644
    share/arbiter.pc lib/pkgconfig/arbiter.pc 644
    share/arbiter.h include/arbiter.h 644
    share/libarbiter.3 share/man/man3/libarbiter.3 644
    share/arbiter.1 share/man/man1/arbiter.1 644
    share/completions/arbiter.bash share/bash-completion/completions/arbiter 644
    share/completions/_arbiter share/zsh/site-functions/_arbiter 644
    share/completions/arbiter.fish share/fish/vendor_completions.d/arbiter.fish 644
    python/arbiterctl bin/arbiterctl 755
    share/completions/arbiterctl.bash share/bash-completion/completions/arbiterctl 644
    share/completions/_arbiterctl share/zsh/site-functions/_arbiterctl 644
    share/completions/arbiterctl.fish share/fish/vendor_completions.d/arbiterctl.fish 644
    share/systemd/arbiter-hold.service lib/systemd/system/arbiter-hold.service 644
    share/grafana.json share/arbiter/grafana.json 644
    share/alerts.yml share/arbiter/alerts.yml 644
  )
  [ ! -x "$checker" ] || installed+=(
    "$checker" bin/arbiter-check 755
    share/arbiter-check.1 share/man/man1/arbiter-check.1 644
    "$second" bin/arbiter-script 755
    share/arbiter-script.1 share/man/man1/arbiter-script.1 644
  )
  [ ! -x "$scheduler" ] || installed+=(
    "$scheduler" sbin/arbiter-scheduler 755
    share/arbiter-scheduler.8 share/man/man8/arbiter-scheduler.8 644
    share/systemd/arbiter-schedule.service lib/systemd/system/arbiter-schedule.service 644
  )
}

# Sets `modules` to the files of the packages, relative to their folder.
find_modules() {
  local folders=("${packages[@]/#/"$python/"}")
  mapfile -t modules < <(find "${folders[@]}" -name '*.py' -o -name py.typed \
    -o -path '*/templates/*')
  modules=("${modules[@]#"$python/"}")
}

# Sets `commit` and its time in seconds, if git knows this clone and no file was changed.
# shellcheck disable=SC2034
find_commit() {
  commit='' commit_time=''
  hash git 2>/dev/null && [ "$(git rev-parse --show-cdup 2>/dev/null || echo none)" = '' ] &&
    [ -z "$(git status --porcelain)" ] &&
    read -r commit commit_time < <(git log -1 --format='%H %ct')
}

# Says beside the packages of which commit and by which kit the library was made, where that is
# known. `arbiterctl --version` prints it.
say_made() { # FOLDER
  rm -f -- "$1/made.json"
  find_commit || return 0
  find_kit
  printf '{"commit": "%s", "kit": "%s"}\n' "$commit" "$kit" >"$1/made.json"
}

# Prints the places below DIR, one a line. A package is one folder.
places() {
  local at
  find_installed
  for ((at = 0; at < ${#installed[@]}; at += 3)); do echo "  ${installed[at + 1]}"; done
  printf "  $pages_place/%s\n" "${pages[@]##*/}"
  printf "  $python_place/%s/\n" "${packages[@]}"
}

# Fails if DIR can be neither written nor made. It is asked before anything is built.
can_install() { # DIR
  local there=$1 tried
  until [ -e "$there" ] || [ -z "$there" ]; do there=${there%/*}; done
  tried=$(mktemp -d "$there/.arbiter.XXXXXX") && rmdir -- "$tried"
}

# Copies one file, or makes one link, beside the place where it belongs.
copy_beside() { # FILE PLACE MODE
  local copy
  mkdir -p -- "${2%/*}" && copy=$(mktemp "${2%/*}/.arbiter.XXXXXX") || return 1
  beside+=("$copy")
  if [ "$3" = link ]; then
    ln -sfT -- "$1" "$copy"
  else
    install -m "$3" -T -- "$1" "$copy"
  fi
}

# Copies the man pages into a folder beside their places.
copy_pages() { # DIR
  local place=$1/$pages_place
  mkdir -p -- "$place" && pages_copy=$(mktemp -d "$place/.arbiter.XXXXXX") || return 1
  beside+=("$pages_copy")
  install -m 644 -t "$pages_copy" -- "${pages[@]}"
}

# Gives the copied man pages their names.
name_pages() { # DIR
  mv -f -t "$1/$pages_place" -- "${pages[@]/#*\//"$pages_copy/"}" || return 1
  printf "build: installed %s\n" "${pages[@]/#*\//"$1/$pages_place/"}"
}

# Copies the packages into a folder beside their places.
copy_packages() { # DIR
  local to=$1/$python_place
  mkdir -p -- "$to" && packages_copy=$(mktemp -d "$to/.arbiter.XXXXXX") || return 1
  beside+=("$packages_copy")
  (cd "$python" && cp --parents -- "${modules[@]}" "$packages_copy") &&
    find "$packages_copy" -type f -exec chmod 644 {} +
}

# Gives the copied modules their names, and removes those of an earlier version.
name_packages() { # DIR
  local folder file to=$1/$python_place folders=("${packages[@]/#/"$1/$python_place/"}")
  local -A ours=()
  for folder in $(printf '%s\n' "${modules[@]%/*}" | sort -u); do
    mkdir -p -- "$to/$folder" && mv -f -t "$to/$folder" -- "$packages_copy/$folder/"*.* || return 1
  done
  for file in "${modules[@]}"; do ours[$to/$file]=yes; done
  while IFS= read -r file; do
    [ -n "${ours[$file]-}" ] || rm -f -- "$file"
  done < <(find "${folders[@]}" -name '*.py' -o -path '*/templates/*')
  say_made "${folders[0]}"
  compile_packages "${folders[@]}"
  printf "build: installed %s/\n" "${folders[@]}"
}

# Compiles the modules, unless the caller wants no such files. Users who may not write in DIR would
# compile them at each call.
compile_packages() { # FOLDER..
  [ -n "${PYTHONDONTWRITEBYTECODE-}" ] || /usr/bin/python3 -m compileall -q "$@" >&2 || true
}

# Refuses a folder where a file belongs.
refuse_folder() { # PLACE
  [ -d "$1" ] || return 0
  echo "build: $1 is a folder" >&2
  return 1
}

# Copies all files beside their places, and only then gives them their names.
install_below() ( # DIR
  beside=()
  trap 'rm -rf -- "${beside[@]}"' EXIT
  trap 'exit 1' HUP INT TERM
  find_installed
  find_modules
  for file in "${modules[@]}"; do refuse_folder "$1/$python_place/$file" || exit 1; done
  for ((at = 0; at < ${#installed[@]}; at += 3)); do
    place=$1/${installed[at + 1]}
    refuse_folder "$place" && copy_beside "${installed[at]}" "$place" "${installed[at + 2]}" ||
      exit 1
  done
  for page in "${pages[@]##*/}"; do refuse_folder "$1/$pages_place/$page" || exit 1; done
  copy_pages "$1" && copy_packages "$1" || exit 1
  for ((at = 0; at < ${#installed[@]}; at += 3)); do
    place=$1/${installed[at + 1]}
    mv -fT -- "${beside[at / 3]}" "$place" || exit 1
    echo "build: installed $place"
  done
  name_pages "$1" && name_packages "$1"
)
