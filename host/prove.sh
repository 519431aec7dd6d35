#!/usr/bin/env bash
# Makes the proved library, target/staticlib/libhost.a, and says each crate as
# it is proved.  target/staticlib.log has all that the prover says; V=1 shows it.
#
#   AR=AR OBJCOPY=OBJCOPY GOALS=GOALS V=V prove.sh
#                                       for a `make GOALS`, in the repository's folder
set -euo pipefail

if ! command -v rt > /dev/null; then
  cat >&2 <<TEXT
The library is proved and compiled by rt, and there is no rt on the PATH.

rt is the command of the Rattle kit, the firm's own toolchain.  The kit is no
part of this repository and no package of Debian; it is to be had from the firm.
It belongs in /opt/rattle, and /opt/rattle/bin (or a link to its rt) on the PATH;
once that is so, \`rt version\` answers.

Without it, plain C shows the same in two seconds.  It is compared with the
second program like the library, but nothing of it is proved:

    make MODEL=plain ${GOALS:-show}

TEXT
  exit 1
fi

# The library's own crates, libhost.a's first, and how many they stand on. The
# calls of single events are compiled apart from the run: each object then has
# one call of what both use, and the compiler puts it into the run's loop
# (DECISIONS 58); and so are the calls of the wide terminal (DECISIONS 136).
own=(host hostbus hostwide hostwiderun)
under=$(sed -nE "s/^($(IFS='|'; echo "${own[*]}")) staticlib: *//p" crates.txt | tr ' ' '\n' | sort -u | wc -l)
mkdir -p target
log=target/staticlib.log

# each_crate: a line for each crate, from what rt says as it goes; of one that
# was proved before rt says nothing.
each_crate() {
  local line crate=
  while IFS= read -r line; do
    [ -z "${V:-}" ] || printf '%s\n' "$line"
    if [[ $line =~ ^crate\ ([a-z]+):\  ]]; then
      crate=${BASH_REMATCH[1]}
    elif [[ $line =~ ^logic=proved\  ]]; then
      echo "proved $crate ($SECONDS s)"
      SECONDS=0
    fi
  done
}

# prove: the archive of each of the library's own crates, in its out/.
prove() {
  local crate
  for crate in "${own[@]}"; do
    (cd "crates/$crate" && rt lib) || return
  done
}

# All archives in one, libhost.a. Each function begins at a multiple of 64
# bytes, so that its time does not depend on the program that it is linked into
# (DECISIONS 110); objcopy does so since binutils 2.33.
join() {
  local made=target/staticlib crate
  mkdir -p "$made"
  {
    echo "CREATE $made/joined.a"
    for crate in "${own[@]}"; do echo "ADDLIB crates/$crate/out/lib$crate.a"; done
    printf 'SAVE\nEND\n'
  } | "${AR:-ar}" -M
  "${OBJCOPY:-objcopy}" --set-section-alignment '.text.*=64' "$made/joined.a"
  mv "$made/joined.a" "$made/libhost.a"
}

echo "proving the library's $((under + ${#own[@]})) crates: some minutes where none is proved yet; $log has how far it is"
if ! prove 2>&1 | tee "$log" | each_crate; then
  [ -n "${V:-}" ] || cat "$log"
  exit 1
fi
join
