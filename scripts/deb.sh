# shellcheck shell=bash disable=SC2154
# Makes Debian packages of what is installed, by debhelper with share/debian. For ./build --deb.

deb_needs=(debhelper dh-python dpkg-dev python3)

# Ends with the line to type if Debian's tools are missing.
need_debhelper() {
  local tool
  for tool in dh dh_python3 dpkg-buildpackage; do
    command -v "$tool" >/dev/null && continue
    echo "build: $tool is missing: sudo apt-get install -y ${deb_needs[*]}" >&2
    exit 2
  done
}

# Prints the names of the packages' files.
debs() {
  local name
  find_version || return 1
  for name in arbiter arbiter-check arbiter-scheduler libarbiter1 libarbiter-dev; do
    echo "  ${name}_${version}_MACHINE.deb"
  done
  echo "  arbiter-host_${version}_all.deb"
}

# Fails if the packages' version is not that of the program.
check_deb_version() {
  local first
  read -r first <share/debian/changelog
  [[ $first == "arbiter ($version) "* ]] && return
  echo "build: share/debian/changelog begins with '$first', and the version is $version" >&2
  return 1
}

# Puts what is installed, the documents and Debian's files into a folder, as the packages take them.
stage_debs() { # FOLDER
  install_below "$1/installed" >/dev/null &&
    cp -R share/debian "$1/debian" && cp -R docs examples "$1"
}

# Makes the packages in a scratch folder, and moves them to DIR.
make_debs() ( # DIR LOG
  scratch=$(mktemp -d) || exit 1
  trap 'rm -rf -- "$scratch"' EXIT
  trap 'exit 1' HUP INT TERM
  umask 022
  check_deb_version && mkdir -p -- "$1" "$scratch/arbiter" && stage_debs "$scratch/arbiter" ||
    exit 1
  DEB_BUILD_PROFILES=''
  [ -e "$scratch/arbiter/installed/bin/arbiter-check" ] || DEB_BUILD_PROFILES=noindependent
  [ -e "$scratch/arbiter/installed/sbin/arbiter-scheduler" ] || DEB_BUILD_PROFILES+=' noscheduler'
  export DEB_BUILD_PROFILES
  if ! (cd "$scratch/arbiter" && dpkg-buildpackage -b -us -uc) >"$2" 2>&1 </dev/null; then
    tail -n 40 "$2" >&2
    exit 1
  fi
  for file in "$scratch"/*.deb; do
    mv -f -- "$file" "$1" || exit 1
    echo "build: made $1/${file##*/}"
  done
)
