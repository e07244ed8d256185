# shellcheck shell=bash
# The rest of ./arbiter, at the top of the repository, where a file may have changed.
set -u
. scripts/current.sh
if is_current; then
  exec "$program" "$@"
fi

# The answers that need no build.
case "$# $*" in
  '1 --version' | '1 -V') find_version && echo "arbiter $version"; exit ;;
  '1 --help' | '1 -h' | '1 help') exec cat share/help/arbiter.txt ;;
  '2 run --help' | '2 run -h' | '2 help run') exec cat share/help/run.txt ;;
  '2 check --help' | '2 check -h' | '2 help check') exec cat share/help/check.txt ;;
esac

need_kit arbiter
. scripts/kept.sh
. scripts/checked.sh
run_checked "$@"
