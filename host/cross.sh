#!/bin/sh
# Where the machine is not x86-64: sees that a compiler for x86-64 and an
# emulator are there, and installs Debian's packages if not.  Says so where it
# cannot.
set -eu

missing=
command -v x86_64-linux-gnu-gcc >/dev/null || missing="$missing gcc-x86-64-linux-gnu"
command -v x86_64-linux-gnu-g++ >/dev/null || missing="$missing g++-x86-64-linux-gnu"
command -v qemu-x86_64 >/dev/null || missing="$missing qemu-user"
[ -z "$missing" ] && exit 0

echo "installing$missing" >&2
# shellcheck disable=SC2086  # the names are to be split
if ! { apt-get update && apt-get install -y --no-install-recommends $missing; } >&2
then
  echo "cannot install$missing: the library is x86-64, so its C host needs them here" >&2
  exit 1
fi
