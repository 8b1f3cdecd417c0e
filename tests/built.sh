# Sourced by what runs a program of this repository, with its top as the current folder.
#   current CRATE   whether crates/CRATE/out/CRATE is there, and newer than each file of crates/
#   built CRATE     sees to it that it is: rt ci leaves it so, and else rt run proves and builds it, and runs it once, on the crate's
#                   own stdin
current() {
  [ -x "crates/$1/out/$1" ] && [ -z "$(find crates crates.txt -name out -prune -o -type f -newer "crates/$1/out/$1" -print -quit)" ]
}

built() {
  local program=crates/$1/out/$1 input=/dev/null said
  ! current "$1" || return 0
  rm -f "$program"
  [ ! -e "crates/$1/stdin" ] || input=$PWD/crates/$1/stdin
  if said=$(cd "crates/$1" && rt run < "$input" 2>&1 > /dev/null) && [ -x "$program" ]; then
    return 0
  fi
  tail -n 5 <<< "$said" >&2
  return 1
}
