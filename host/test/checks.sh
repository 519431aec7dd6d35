# shellcheck shell=bash
# Checks of commands at a shell, for the scripts that source this: what a
# command prints, where, and its status.  Each check says what is not so, and
# goes on.

here=$(mktemp -d)
trap 'rm -rf "$here"' EXIT
: > "$here/out"
: > "$here/err"
status=0
checks_failed=0
checks_made=0

# ran COMMAND...: runs it on what stands on standard input; keeps all that it
# answers.
ran() {
  status=0
  "$@" > "$here/out" 2> "$here/err" || status=$?
}

# check WHAT CONDITION...: a condition that must hold.
check() {
  local what=$1
  shift
  checks_made=$((checks_made + 1))
  if ! "$@"; then
    checks_failed=$((checks_failed + 1))
    echo "not so: $what" >&2
    head -c 2000 "$here/out" | LC_ALL=C cat -v | sed 's/^/  out: /' >&2
    sed 's/^/  err: /' "$here/err" >&2
  fi
}

# Conditions on what was kept.
status_is() { [ "$status" -eq "$1" ]; }
out_is() { [ "$(cat "$here/out")" = "$1" ]; }
out_has() { grep -qxF -- "$1" "$here/out"; }
line_is() { [ "$(sed -n "$1p" "$here/out")" = "$2" ]; }
err_is() { [ "$(cat "$here/err")" = "$1" ]; }
err_has() { grep -qF -- "$1" "$here/err"; }
nothing_on() { [ ! -s "$here/$1" ]; }

# bytes HEX...: those bytes.
bytes() {
  local byte
  for byte in "$@"; do printf '%b' "\\x$byte"; done
}

# checks_end NAME: a line that says how it went, and the script's status.
checks_end() {
  echo "$1: $checks_made checks, $checks_failed failed"
  [ "$checks_made" -gt 0 ] && [ "$checks_failed" -eq 0 ]
}
