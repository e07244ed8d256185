# shellcheck shell=bash
# Files that this machine keeps outside the sources: the checked build, times of commands, and what
# the gate counted.

# Sets `here` to the folder for it, without links, or to nothing if this user has none that can be
# written, and that no other user may change.
find_here() {
  local cache=${XDG_CACHE_HOME-}
  [[ $cache == /* ]] || cache=${HOME-}/.cache
  here=$cache/arbiter
  [[ $here == /*/arbiter ]] && (umask 077 && mkdir -p "$here") 2>/dev/null &&
    here=$(cd -P "$here" 2>/dev/null && pwd) && [ -O "$here" ] && [ -w "$here" ] &&
    is_ours "$here" || here=''
}

# Tests whether a path without links and all folders above are this user's or root's, and nobody
# else may write them. In a sticky folder, as /tmp, others change no file of this user. The bits of
# the group are also the most that a list of users lets any of them do.
is_ours() { # PATH
  local path=$1 found
  local -a all=(/)
  while [ -n "$path" ]; do
    all+=("$path")
    path=${path%/*}
  done
  found=$(find "${all[@]}" -maxdepth 0 \( ! -uid 0 ! -uid "$EUID" -o -type l -o \
    -perm /022 ! \( -type d -perm -1000 \) \) -print) && [ -z "$found" ]
}

find_here
# The folder of what the gate counted, for scripts/counts.py.
# shellcheck disable=SC2034
counts=${here:-$PWD/out}/counts

# Prints a number of seconds in words: '7 s', '12 min 5 s', '1 h 4 min'.
in_words() { # SECONDS
  if (($1 < 60)); then
    echo "$1 s"
  elif (($1 < 3600)); then
    echo "$(($1 / 60)) min $(($1 % 60)) s"
  else
    echo "$(($1 / 3600)) h $(($1 % 3600 / 60)) min"
  fi
}

# Prints how long a command took at its last measurement: on this machine, otherwise the one that
# scripts/times has.
last_time() { # WHAT
  if [ -n "$here" ] && [ -f "$here/time of $1" ]; then
    cat "$here/time of $1"
  else
    sed -n "s/^$1: //p" scripts/times
  fi
}

# Keeps for `last_time` how long a command took.
note_time() { # WHAT SECONDS
  [ -n "$here" ] || return 0
  echo "$(in_words "$2") on this machine ($(date +%F))" 2>/dev/null >"$here/time of $1" || true
}
