#!/usr/bin/env bash
# Tests of `make install` and `make uninstall` in empty folders: what lies where,
# C programs built by pkg-config against it, the man page, and that nothing else
# is removed.
#
#   MAKE=MAKE MODEL=MODEL CC=COMPILER test.sh [RUN...]      RUN... runs a program;
#   in the folder of the Makefile
set -euo pipefail

run=("$@")
# shellcheck source=host/test/checks.sh
. "$(dirname "$0")/../host/test/checks.sh"
make=("$MAKE" --no-print-directory MODEL="$MODEL")
prefix=$here/prefix
version=$(sed -n 's/^#define SSD1815B_VERSION *"\(.*\)".*/\1/p' host/ssd1815b.h)
soname=libssd1815b.so.${version%%.*}

files="bin/ssd1815b
include/ssd1815b.h
lib/libssd1815b.a
lib/libssd1815b.so
lib/$soname
lib/pkgconfig/ssd1815b.pc
share/man/man1/ssd1815b.1"
# The files under a folder.
found_in() { (cd "$1" && find . ! -type d | sed 's,^\./,,' | LC_ALL=C sort); }

# ---- what is installed ----

check 'the header has a version' [ -n "$version" ]
ran "${make[@]}" install PREFIX="$prefix"
check 'install: status 0' status_is 0
check 'install: just these files' [ "$(found_in "$prefix")" = "$(LC_ALL=C sort <<< "$files")" ]
check 'install: each is named' [ "$(LC_ALL=C sort "$here/out")" = "$(LC_ALL=C sort <<< "$files" | sed "s,^,$prefix/,")" ]
check 'install: no compiler command lines' [ "$(grep -c gcc "$here/out")" -eq 0 ]

# Document 01's trace: from the old start as it is printed there, from the new
# one as Order 3 has it.
trace='\001\000\001\000\257\002\000\002\000\003\001'
# shellcheck disable=SC2059  # the trace is meant as a format
ran "${run[@]}" "$prefix/bin/ssd1815b" list --upright < <(printf "$trace")
check 'the tool lists what document 01 prints, upright' out_is $'frame 132 65\n0 0-1\n1 0-0\nend'
# shellcheck disable=SC2059
ran "${run[@]}" "$prefix/bin/ssd1815b" list < <(printf "$trace")
check 'the tool lists it turned, upside down' out_is $'frame 132 65\n62 131-131\n63 130-131\nend'

# ---- programs against it ----

cat > "$here/mine.c" <<'C'
#include <ssd1815b.h>

static uint8_t state[SSD1815B_STATE_SIZE];
static uint8_t memory[SSD1815B_MEMORY_SIZE];
static uint8_t frame[SSD1815B_FRAME_SIZE];

/* Whether these two places are all that is lit after AF and a data byte 03. */
static int shows(unsigned one, unsigned other)
{
  unsigned lit = 0;
  ssd1815b_command(state, sizeof state, memory, sizeof memory, 0xAF);
  ssd1815b_write(state, sizeof state, memory, sizeof memory, 0x03);
  ssd1815b_draw(state, sizeof state, memory, sizeof memory, frame, sizeof frame);
  for (unsigned i = 0; i < sizeof frame; i++) lit += frame[i];
  return lit == 2 && frame[one] == 1 && frame[other] == 1;
}

/* Whether a wide terminal's icon page lies where it should. */
static int pages(void)
{
  size_t place;
  size_t length;
  return ssd1815b_wide_page(memory, sizeof memory, memory, sizeof memory, SSD1815B_RIGHT, 8, &place, &length) == 0
         && place == 1056 && length == 132;
}

int main(void)
{
  ssd1815b_start(state, sizeof state, memory, sizeof memory);
  if (!shows(62 * 132 + 131, 63 * 132 + 131)) return 1;
  ssd1815b_start_upright(state, sizeof state, memory, sizeof memory);
  return shows(0, 132) && pages() ? 0 : 2;
}
C
export PKG_CONFIG_PATH=$prefix/lib/pkgconfig
if command -v pkg-config > /dev/null; then
  read -ra flags < <(pkg-config --cflags --libs ssd1815b)
  check "pkg-config: the header's version" [ "$(pkg-config --modversion ssd1815b)" = "$version" ]
  check 'pkg-config: which model' [ "$(pkg-config --variable=model ssd1815b)" = "$MODEL" ]
else
  echo 'install: no pkg-config here; its file is read by hand' >&2
  flags=(-I"$prefix/include" -L"$prefix/lib" -lssd1815b)
fi
needs() { "${CC%gcc}readelf" -d "$1" | grep -c "NEEDED.*$soname"; }

ran "$CC" "$here/mine.c" "${flags[@]}" -o "$here/shared"
check 'a program links the shared object' status_is 0
check 'a program needs the shared object by its version' [ "$(needs "$here/shared")" -eq 1 ]
ran env LD_LIBRARY_PATH="$prefix/lib" "${run[@]}" "$here/shared"
check 'the shared object: rows 62 and 63 are lit at their last place, and upright 0 and 1 at their first' status_is 0

ran "$CC" "$here/mine.c" -Wl,-Bstatic "${flags[@]}" -Wl,-Bdynamic -o "$here/archived"
check 'a program links the archive' status_is 0
check 'a program with the archive needs no shared object' [ "$(needs "$here/archived")" -eq 0 ]
ran "${run[@]}" "$here/archived"
check 'the archive: rows 62 and 63 are lit at their last place, and upright 0 and 1 at their first' status_is 0

exported() { "${CC%gcc}nm" -D --defined-only "$prefix/lib/$soname" | awk '{ print $NF }' | LC_ALL=C sort; }
declared=$(sed -nE 's/^uint8_t (ssd1815b_[a-z_0-9]+)\($/\1/p' host/ssd1815b.h | LC_ALL=C sort)
check 'the shared object exports just the calls of the header' [ "$(exported)" = "$declared" ]
check 'the shared object has no code that is written to as it is loaded' \
  [ "$("${CC%gcc}readelf" -d "$prefix/lib/$soname" | grep -c TEXTREL)" -eq 0 ]

# ---- the man page ----

page=$prefix/share/man/man1/ssd1815b.1
if command -v groff > /dev/null; then
  ran groff -mdoc -Tutf8 -ww -z "$page"
  check 'the man page: no warnings' nothing_on err
  groff -mdoc -Tascii -P-c -P-b -P-u "$page" > "$here/page"
  "${run[@]}" "$prefix/bin/ssd1815b" --help > "$here/help"
  grep -oE -- '--[a-z]+' "$here/help" | sort -u > "$here/words"
  sed -nE 's/^  ([a-z]+)   .*/\1/p' "$here/help" >> "$here/words"
  check 'the help has commands and options' [ "$(wc -l < "$here/words")" -gt 4 ]
  check 'the man page has help COMMAND among its usage lines' grep -qE '^ +ssd1815b help \[command\]$' "$here/page"
  while read -r word; do
    check "the man page names $word" grep -qE -- "(^|[^a-z-])$word([^a-z-]|$)" "$here/page"
  done < "$here/words"
else
  echo 'install: the man page is not read, as there is no groff' >&2
fi

# ---- what is removed ----

: > "$prefix/lib/libother.a"
: > "$prefix/bin/ssd1815b-mine"
ran "${make[@]}" uninstall PREFIX="$prefix"
check 'uninstall: status 0' status_is 0
check 'uninstall: nothing else is removed' [ "$(found_in "$prefix")" = $'bin/ssd1815b-mine\nlib/libother.a' ]
ran "${make[@]}" uninstall PREFIX="$prefix"
check 'uninstall again: status 0' status_is 0

# ---- DESTDIR ----

ran "${make[@]}" install PREFIX=/usr DESTDIR="$here/package"
check 'DESTDIR: status 0' status_is 0
check 'DESTDIR: under it' [ "$(found_in "$here/package/usr")" = "$(LC_ALL=C sort <<< "$files")" ]
check 'DESTDIR: not in the pkg-config file' grep -qx 'prefix=/usr' "$here/package/usr/lib/pkgconfig/ssd1815b.pc"
ran "${make[@]}" uninstall PREFIX=/usr DESTDIR="$here/package"
check 'DESTDIR: removed' [ -z "$(found_in "$here/package")" ]

checks_end install
