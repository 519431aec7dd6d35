#!/usr/bin/env bash
# Tests of .ci/contracts: which functions it takes for public, what it asks of
# them, and what it says.
#
#   contracts.sh      in the repository's folder
set -euo pipefail

# shellcheck source=host/test/checks.sh
. "$(dirname "$0")/checks.sh"

contracts=$PWD/.ci/contracts

# file PATH: a file of crates/ that has what stands on standard input.
file() {
  mkdir -p "$here/it/crates/${1%/*}"
  cat > "$here/it/crates/$1"
}
# crates: two anew, of which the first passes on Shown alone of one file.
crates() {
  rm -rf "$here/it"
  printf '%s\n' 'pub mod calls;' 'mod kept;' 'pub use kept::Shown;' | file one/src/lib.rt
  printf '%s\n' 'pub mod calls;' | file two/src/lib.rt
}
# calls, kept: .ci/contracts where the first crate has this in such a file.
calls() { crates; file one/src/calls.rt; ran env -C "$here/it" "$contracts"; }
kept() { crates; file one/src/kept.rt; ran env -C "$here/it" "$contracts"; }

# refused WHAT LINE: it was, by this line alone.
refused() {
  check "$1: status 1" status_is 1
  check "$1: said" out_is "crates/one/src/$2"
}
# passed WHAT: it was.
passed() {
  check "$1" status_is 0
  check "$1: nothing said" nothing_on out
}
nothing='and nothing is said of what it gives back'

# ---- functions ----

calls <<< $'pub fn one() -> u8\n    ensures { result ≡ 1 }\n{\n    1\n}'
passed 'a public function with an ensures'
calls <<< $'fn one() -> u8 {\n    1\n}'
passed 'a function that is not public'
calls <<< $'pub fn one() -> u8 {\n    1\n}'
refused 'a public function without' "calls.rt:1: one: public, $nothing"
calls <<< $'pub fn one(n: u8) -> u8\n    requires { n < 9 }\n    ensures { result ≡ n }\n{\n    n\n}'
refused 'a public function that asks' 'calls.rt:1: one: public, and has a requires'
kept <<< $'pub fn one() -> u8 {\n    1\n}'
passed 'one of a file that is kept'
kept <<< $'impl Shown {\n    pub fn one() -> u8 {\n        1\n    }\n}'
refused 'of a type that is passed on' "kept.rt:2: Shown::one: public, $nothing"
kept <<< $'impl<\'a, T: From<&\'a u8>> Shown<\'a, T> {\n    pub fn one() -> u8 {\n        1\n    }\n}'
refused 'of a type with parameters' "kept.rt:2: Shown::one: public, $nothing"

# long LINES: a function whose body has as many.
long() { echo 'fn one() {'; for ((i = 0; i < $1; i++)); do echo '    two();'; done; echo '}'; }
calls < <(long 40)
passed 'a body of 40 lines'
calls < <(long 41)
refused 'a body of 41 lines' 'calls.rt:1: one: 41 lines long'

# ---- what an impl of a trait has ----

# from MEMBER: an impl of From, with this before its function.
from() { printf 'impl From<Two> for u8 {\n    %s\n\n    fn from(two: Two) -> u8 {\n        two as u8\n    }\n}\n' "$1"; }
calls < <(from 'ghost from_gives = { λ two number. number ≡ number_of two };')
passed 'an impl with the ghost member'
calls < <(from 'ghost laws = { λ two number. number ≡ number_of two };')
refused 'with another ghost member' "calls.rt:4: u8::from: public, $nothing"
calls < <(from '// ghost from_gives = { λ two number. number ≡ number_of two };')
refused 'with the ghost member in a comment' "calls.rt:4: u8::from: public, $nothing"
calls < <(from ''; from 'ghost from_gives = { λ two number. number ≡ number_of two };')
refused 'with the ghost member in the next impl' "calls.rt:4: u8::from: public, $nothing"
calls < <(from 'ghost from_gives = { λ two number. number ≡ number_of two };'; from '')
refused 'with the ghost member in the impl before' "calls.rt:11: u8::from: public, $nothing"
calls < <(from 'ghost from_gives = { λ two number. number ≡ number_of two };' | sed 's/    fn/    pub fn/')
refused 'with the ghost member, but marked pub' "calls.rt:4: u8::from: public, $nothing"
kept < <(from '')
refused 'in a file that is kept' "kept.rt:4: u8::from: of a trait, $nothing"
calls <<< $'impl PartialEq for Two {\n    ghost eq = { λ a b. a.n == b.n };\n\n    fn eq(&self, two: &Two) -> bool {\n        self.n == two.n\n    }\n}'
passed 'a ghost member of the very name'
calls <<< $'impl fmt::Display for Two {\n    ghost output = { λ two. Some (said two) };\n\n    fn fmt(&self) -> fmt::Result {\n        said()\n    }\n}'
passed 'a printing with its output'
calls <<< $'impl fmt::Display for Two {\n    fn fmt(&self) -> fmt::Result {\n        said()\n    }\n}'
refused 'a printing without' "calls.rt:2: Two::fmt: public, $nothing"
calls <<< $'impl Drop for Two<\'_> {\n    fn drop(self)\n        ensures { self.exit.0.now ≡ 0 }\n    {\n        done();\n    }\n}'
passed 'an ensures of its own'
calls <<< $'impl Drop for Two<\'_> {\n    fn drop(self)\n        requires { self.0.now ≡ 0 }\n        ensures { self.exit.0.now ≡ 0 }\n    {\n        done();\n    }\n}'
refused 'a requires of its own' 'calls.rt:2: Two::drop: public, and has a requires'

# ---- what a trait declares ----

# counted CLAUSE: a trait whose first function has this.
counted() { printf 'pub trait Counted {\n    fn count(&self) -> u8\n        %s;\n\n    fn none(&mut self)\n        ensures { self.new ≡ 0 };\n}\n' "$1"; }
# two: an impl of it.
two() { printf 'impl Counted for Two {\n    fn count(&self) -> u8 {\n        2\n    }\n\n    fn none(&mut self) {\n        self.n = 0;\n    }\n}\n'; }
ensured='ensures { result ≡ count_of self.now }'
calls < <(counted "$ensured"; two)
passed 'a trait with an ensures, and its impl'
calls < <(counted 'where Self: Sized')
refused 'a trait without' "calls.rt:2: Counted::count: public, $nothing"
kept < <(counted 'where Self: Sized')
refused 'a trait without, in a file that is kept' "kept.rt:2: Counted::count: of a trait, $nothing"
calls < <(counted 'requires { self.now ≡ 1 }'$'\n        '"$ensured")
refused 'a trait that asks' 'calls.rt:2: Counted::count: public, and has a requires'
kept < <(counted 'requires { self.now ≡ 1 }'$'\n        '"$ensured")
passed 'a trait that asks, in a file that is kept'
calls < <(counted "$ensured"; echo $'pub fn after() -> u8 {\n    1\n}')
refused 'a function after a trait' "calls.rt:8: after: public, $nothing"
calls < <(counted "$ensured"; long 41)
refused 'a long one after a trait' 'calls.rt:8: one: 41 lines long'
calls < <(two)
check 'an impl of a trait that is not there: status 1' status_is 1
check 'an impl of a trait that is not there: first' line_is 1 "crates/one/src/calls.rt:2: Two::count: public, $nothing"
check 'an impl of a trait that is not there: second' line_is 2 "crates/one/src/calls.rt:6: Two::none: public, $nothing"
# of_other USE: the impl in another crate than the trait's.
of_other() { crates; counted "$ensured" | file one/src/calls.rt; { echo "$1"; two; } | file two/src/calls.rt; ran env -C "$here/it" "$contracts"; }
of_other 'use one::calls::{Counted, Two};'
passed "an impl of another crate's trait"
of_other 'use other::Counted;'
check 'an impl of a trait of the same name: status 1' status_is 1

crates
{ counted "$ensured"; from 'ghost from_gives = { λ two number. number ≡ number_of two };'; two; } | file one/src/calls.rt
ran env -C "$here/it" "$contracts" --calls
check 'the calls: status' status_is 0
for line in 'crates/one/src/calls.rt:2: Counted::count' "        $ensured;" 'crates/one/src/calls.rt:11: u8::from' \
    '    ghost from_gives = { λ two number. number ≡ number_of two };' 'crates/one/src/calls.rt:16: Two::count' '    as its trait says'; do
  check "the calls: $line" out_has "$line"
done

checks_end contracts
