#!/bin/sh
# Writes copies of a tree of cgroups into a folder: FOLDER/copy-0 to copy-2, made 3 s apart. They are
# two runs of the scenario `two-demands` in a guest with Linux 6.1, one after the other.
#
#     sh examples/copies.sh FOLDER
#     arbiterctl audit FOLDER/copy-? --read x3s --cpus 2 --want psi

# One group: its folder, weight, tasks, and the microseconds that it used and waited.
group() {
  mkdir -p "$1"
  echo "$2" >"$1/cpu.weight"
  echo 'max 100000' >"$1/cpu.max"
  echo 0 >"$1/cpu.max.burst"
  seq "$3" >"$1/cgroup.threads"
  echo "usage_usec $4" >"$1/cpu.stat"
  echo "some avg10=0.00 avg60=0.00 avg300=0.00 total=$5" >"$1/cpu.pressure"
}

# One copy: its folder, and what a, b and c used and waited.
copy() {
  mkdir -p "$1"
  echo "usage_usec $(($2 + $4 + $6))" >"$1/cpu.stat"
  group "$1/a" 200 2 "$2" "$3"
  group "$1/b" 100 1 "$4" "$5"
  group "$1/c" 100 2 "$6" "$7"
}

copy "$1/copy-0" 0 0 0 0 0 0
copy "$1/copy-1" 3587130 608580 901830 0 1496310 2251845
copy "$1/copy-2" 6575040 1616640 1799880 0 3590790 4204605
