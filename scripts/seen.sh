# shellcheck shell=sh
# Whether anything changed since a build was found up to date. ./arbiter, which is sh, and
# current.sh share it: a call of ./arbiter reads no other script if nothing did.
#
# Beside a stamp, STAMP.names has the names of all that it speaks of, folders and the kit's files
# too, and STAMP.files what `look` printed of them.

# Prints where rt is, and the time of change, inode and size of each file of a list. The kernel
# alone sets that time. So equal lines mean equal files, unread. It ends the shell, a part of a
# pipe or a subshell: another process would cost a tenth of the whole.
look() { # NAMES
  command -v rt
  LC_ALL=C
  export LC_ALL
  exec find -L -files0-from "$1" -maxdepth 0 -printf '%C@ %i %s %p\n' 2>/dev/null
}

# Tests whether no file changed.
is_as_seen() { # STAMP
  [ -f "$1.names" ] && [ -f "$1.files" ] && look "$1.names" | cmp -s - "$1.files"
}
