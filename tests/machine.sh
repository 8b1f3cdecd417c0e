# Sourced by the scripts that run the library or a program. Both are x86-64 code. A machine of another kind runs it under an
# emulator, and compiles C for it by a cross compiler: on Debian the packages qemu-user, gcc-x86-64-linux-gnu and, for the C
# library, libc6-dev-amd64-cross.
#   run_x86     the words in front of an x86-64 program
#   cc_x86      the C compiler for one
#   ready_x86   sees to it that both are there: installs them where it may, and else says what is missing
if [ "$(uname -m)" = x86_64 ]; then
  run_x86=()
  cc_x86=(gcc)
else
  run_x86=(qemu-x86_64 -L /usr/x86_64-linux-gnu)
  cc_x86=(x86_64-linux-gnu-gcc -static)
fi

# Whether an x86-64 program can be made and run here: one is.
runs_x86() {
  local room status
  room=$(mktemp -d)
  printf '#include <stdio.h>\nint main(void) { return puts("ran") < 0; }\n' > "$room/try.c"
  "${cc_x86[@]}" "$room/try.c" -o "$room/try" && [ "$("${run_x86[@]}" "$room/try")" = ran ]
  status=$?
  rm -r "$room"
  return $status
} 2> /dev/null

ready_x86() {
  local packages="qemu-user gcc-x86-64-linux-gnu libc6-dev-amd64-cross"
  local install="apt-get install -y -q --no-install-recommends"
  runs_x86 && return 0
  if [ "$(uname -m)" != x86_64 ] && [ "$(id -u)" -eq 0 ] && command -v apt-get > /dev/null; then
    echo "installing $packages, to run x86-64 code on this $(uname -m) machine" >&2
    # shellcheck disable=SC2086
    $install $packages > /dev/null 2>&1 || { apt-get update -q && $install $packages; } > /dev/null 2>&1
    runs_x86 && return 0
  fi
  echo "this $(uname -m) machine can't make and run x86-64 programs: install gcc, or on another kind of machine $packages" >&2
  return 1
}
