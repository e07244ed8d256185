# shellcheck shell=bash disable=SC2154
# Makes a release of what is installed, by scripts/release.py. For ./build --release.

# Ends where a release would have no name: its files say of which commit they are.
need_release() {
  need_debhelper
  if ! /usr/bin/python3 -c 'import tomllib' 2>/dev/null; then
    echo "build: /usr/bin/python3 has to be 3.11 or later: sudo apt-get install -y python3" >&2
    exit 2
  fi
  if ! find_commit; then
    echo "build: a release is of a commit, without a changed file: see git status" >&2
    exit 2
  fi
  find_kit
  # before the hour of a build that could not be released
  /usr/bin/python3 scripts/counts.py "$counts" "$kit" || exit 1
}

# Sets `image` to the folder of Debian's packages for an image of containers. It is empty where they
# cannot be had, and then no image is made.
find_image() {
  image=''
  if ! hash apt-get 2>/dev/null; then
    echo "build: no image of containers: apt-get is missing" >&2
  elif /usr/bin/python3 scripts/image.py out/image; then
    image=out/image
  fi
}

# Makes all files of a release in a folder, which is made if it is not there.
make_release() ( # DIR LOG
  scratch=$(mktemp -d) || exit 1
  trap 'rm -rf -- "$scratch"' EXIT
  trap 'exit 1' HUP INT TERM
  # nothing of this machine and of this time is in them
  export SOURCE_DATE_EPOCH=$commit_time PYTHONDONTWRITEBYTECODE=1 LC_ALL=C TZ=UTC
  umask 022
  find_kit
  find_image
  install_below "$scratch/installed" >/dev/null && make_debs "$scratch/debs" "$2" >/dev/null &&
    /usr/bin/python3 scripts/release.py "$scratch/installed" "$1" "$version" "$commit" \
      "$commit_time" "$kit" "$counts" "$image" "$scratch"/debs/*.deb
)
