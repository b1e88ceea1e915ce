# How a program of ours is built and run: rt leaves it in the folder of its crate, as crates/NAME/out/NAME, and it is x86-64 code.
# Read in by ./vn and tools/program, so that neither starts a second shell for it.
# They have `here`, the folder above this one, and `stop`, which ends with words.

# build_program NAME: has rt prove, build and run it. It is run on nothing, and by that ends with status 0.
build_program() { (cd "$here/crates/$1" && rt run </dev/null); }

# with_program NAME COMMAND..: the command, and behind it the words that run NAME. On another machine than x86-64 it runs under
# an emulator, with the loader and the C library of the kit, which lies where the script does that rt is.
with_program() {
  program="$here/crates/$1/out/$1"
  [ -x "$program" ] || stop "$program is not there: build it with tools/program --build $1"
  shift
  if [ "$(uname -m)" = x86_64 ]; then
    "$@" "$program"
    return
  fi
  kit="${RATTLE_HOME:-}"
  if [ -z "$kit" ]; then
    kit="$(readlink -f "$(command -v rt)")" || stop "the Rattle kit's command rt is not on the PATH"
    kit="${kit%/*}/.."
  fi
  loader="$kit/toolchain/lib/ld-linux-x86-64.so.2"
  [ -e "$loader" ] || stop "no loader in the kit at $kit"
  "$@" qemu-x86_64 "$loader" --library-path "$kit/toolchain/lib" "$program"
}
