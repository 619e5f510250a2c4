# To be sourced: how to compile C for the archive, which is x86-64 code, and how to run what was compiled.
# CC the compiler with its flags, RUN the words before a program (none where it runs as it is), PROGRAM those before a
# program that rt has linked, which needs a C library, BUILD the output folder.
tools/install >&2
STRICT=(-std=c99 -Wall -Wextra -Wpedantic -Werror)
if [ "$(uname -m)" = x86_64 ]; then
  CC=(gcc -O2 "${STRICT[@]}")
  RUN=()
  PROGRAM=()
else
  # linked whole, so that the emulator needs no x86-64 libraries
  CC=(x86_64-linux-gnu-gcc -static -O2 "${STRICT[@]}")
  RUN=(qemu-x86_64)
  amd64=/usr/x86_64-linux-gnu/lib
  PROGRAM=(qemu-x86_64 "$amd64/ld-linux-x86-64.so.2" --library-path "$amd64")
fi
BUILD=build
mkdir -p "$BUILD"
