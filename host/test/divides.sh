#!/usr/bin/env bash
# Tests of .ci/divides: what it takes for a division in the source and in an
# archive, how far it follows calls, and what it says.
#
#   CC=COMPILER AR=AR OBJDUMP=OBJDUMP divides.sh      in the repository's folder
set -euo pipefail

# shellcheck source=host/test/checks.sh
. "$(dirname "$0")/checks.sh"

# said PATTERN: a line of what it printed.
said() { grep -qE -- "$1" "$here/out"; }

# ---- an archive ----

calls=(draw wide_draw {,wide_}{command,write,read,reset} run wide_run)

# object AT TEXT CALL...: an object, AT.o, of C that has this text, and of these
# calls each that the text has not.
object() {
  local at=$1 text=$2 call
  shift 2
  {
    echo '#define APART __attribute__((noipa))'
    printf '%s\n' "$text"
    for call in "$@"; do
      [[ $text = *"ssd1815b_$call("* ]] || echo "int ssd1815b_$call(int a, int b) { return a + b; }"
    done
  } > "$at.c"
  "$CC" -O1 -ffunction-sections -c "$at.c" -o "$at.o"
}

# archive OBJECT...: .ci/divides on an archive of these.
archive() {
  rm -f "$here/it.a"
  "$AR" qcs "$here/it.a" "${@/%/.o}"
  ran .ci/divides archive "$here/it.a" "$OBJDUMP"
}

# compiled TEXT [CALL...]: .ci/divides on an archive of all calls, and these.
compiled() {
  object "$here/one" "$1" "${calls[@]}" "${@:2}"
  archive "$here/one"
}

# refused WHAT PATTERN: it was, with such a line.
refused() {
  check "$1: status 1" status_is 1
  check "$1: said" said "$2"
}
# passed WHAT: it was.
passed() { check "$1" status_is 0; }

compiled ''
passed 'no division'
check 'no division: each call looked at' out_is 'divides archive: 12 functions looked at, none divides'

for call in "${calls[@]}"; do
  compiled "int ssd1815b_$call(int a, int b) { return a / b; }"
  refused "$call divides" "^ssd1815b_$call: has idiv"
done

compiled 'int ssd1815b_list(int a, int b) { return a / b; }' list
passed 'a call that may divide'
compiled 'int ssd1815b_later(int a, int b) { return a / b; }' later
refused 'a call that is new' '^ssd1815b_later: has idiv'

# How far it follows.
divides='APART static unsigned far(unsigned a, unsigned b) { return a % b; }'
compiled "$divides
APART unsigned near(unsigned a, unsigned b) { return far(a, b) + 1; }
int ssd1815b_wide_draw(unsigned a, unsigned b) { return near(a, b) != 0; }"
refused 'two calls further' '^ssd1815b_wide_draw > \.text\.near > \.text\.far: has div'
compiled "$divides
APART static unsigned plain(unsigned a) { return a + 1; }
int ssd1815b_draw(unsigned a, unsigned b) { return plain(a) + plain(b) + far(a, b) == 1; }"
refused 'the last of three calls' '^ssd1815b_draw > \.text\.far: has div'
chain=$divides
last=far
for next in e d c b; do
  chain+=" APART static unsigned $next(unsigned x, unsigned y) { return $last(x, y) + 1; }"
  last=$next
done
compiled "$chain unsigned ssd1815b_run(unsigned x, unsigned y) { return b(x, y) + 1; }"
refused 'five calls further' '^ssd1815b_run > .*b > .*c > .*d > .*e > .*far: has div'
compiled "__attribute__((cold)) ${divides/APART/APART __attribute__((cold))}
int ssd1815b_read(unsigned a, unsigned b) { return a > b ? (int)far(a, b) : 0; }"
refused 'a function set aside as cold' '^ssd1815b_read > .*far: has div'
compiled "$divides unsigned ssd1815b_write(unsigned a, unsigned b) { return far(a, b); }"
refused 'the call that a function ends with' '^ssd1815b_write > \.text\.far: has div'
long=$(for ((i = 0; i < 300; i++)); do echo "  v += $i;"; done)
compiled "unsigned ssd1815b_draw(unsigned a) { volatile unsigned v = a;
$long
  return a / v; }"
refused 'after 900 instructions' '^ssd1815b_draw: has div'

# Each object has its own.
object "$here/one" "${divides/a % b/a + b}
unsigned ssd1815b_draw(unsigned a, unsigned b) { return far(a, b) + 1; }" "${calls[@]}"
object "$here/two" "$divides unsigned ssd1815b_list(unsigned a, unsigned b) { return far(a, b) + 1; }"
archive "$here/two" "$here/one"
passed 'the name of a function that divides, in another object'
object "$here/two" "$divides unsigned beyond(unsigned a, unsigned b) { return far(a, b) + 1; }"
object "$here/one" "unsigned beyond(unsigned a, unsigned b); ${divides/a % b/a + b}
unsigned ssd1815b_draw(unsigned a, unsigned b) { return far(a, b) + beyond(a, b); }" "${calls[@]}"
archive "$here/one" "$here/two"
refused 'in another object' '^ssd1815b_draw > \.text\.beyond > \.text\.far: has div'
archive "$here/one" "$here/two" "$here/two"
check 'an object that is there twice' err_has 'two.o has two sections'
object "$here/three" 'int beyond(int a, int b) { return a + b; }'
archive "$here/one" "$here/two" "$here/three"
refused 'a function that is there twice' '^ssd1815b_draw: calls beyond, which is not there, or twice'
object "$here/two" 'int ssd1815b_draw(int a, int b) { return a + b; }'
archive "$here/one" "$here/two"
check 'a call that is there twice' err_has 'the archive has ssd1815b_draw twice'

# What is a division.
for text in 'divl (%rdi)' 'idivb %sil' 'ds divq 8(%rdi)' 'divss %xmm1, %xmm0' 'divpd %xmm1, %xmm0' 'vdivps %ymm2, %ymm1, %ymm0' \
    'fdivrp' 'fidivs (%rdi)' 'fprem'; do
  compiled "void ssd1815b_reset(void) { __asm__ volatile (\"$text\"); }"
  refused "$text" '^ssd1815b_reset: has .*(div|fprem)'
done
for text in 'call *%rax' 'jmp *%rax' 'lcall *(%rdi)' '.byte 0x06'; do
  compiled "void ssd1815b_reset(void) { __asm__ volatile (\"$text\"); }"
  refused "$text" '^ssd1815b_reset: has .*(\*|bad)'
done
# shellcheck disable=SC2016  # numbers of assembly
for text in 'imull %esi, %edi' 'shrl $3, %edi' 'subl $64, %edi' 'rep stosb'; do
  compiled "void ssd1815b_reset(void) { __asm__ volatile (\"$text\"); }"
  passed "$text"
done
compiled 'int ssd1815b_run(int a) { switch (a) { case 0: return 5; case 1: return 44; case 2: return 7; case 3: return 1;
case 4: return a * 9; case 5: return a ^ 3; case 6: return 2; default: return 0; } }'
passed 'a table to jump by'
compiled 'unsigned __int128 ssd1815b_run(unsigned __int128 a, unsigned __int128 b) { return a / b; }'
refused 'the division of a C library' '^ssd1815b_run: calls __udivti3, which is not there'
compiled 'void *memset(void *, int, unsigned long); void ssd1815b_draw(void *p) { memset(p, 0, 9999); }'
passed 'memset'
for i in "${!calls[@]}"; do
  object "$here/one" '' "${calls[@]:0:i}" "${calls[@]:i+1}"
  archive "$here/one"
  refused "an archive without ${calls[i]}" "^ssd1815b_${calls[i]}: not there$"
done

# ---- the source ----

# assigned OPERATION: a statement that has it, as mir.json has one; an operation
# with a sign is NAME/SIGN, and one that begins with a brace stands as it is.
assigned() {
  local operation=\"$1\"
  case $1 in
    '{'*) operation=$1 ;;
    */*) operation="{\"${1%/*}\":\"${1#*/}\"}" ;;
  esac
  printf ',{"Assign":[{"local":0,"steps":[]},{"Op2":[%s,{"Copy":{"local":1,"steps":[]}},{"Int":{"width":64,"value":16}}]}]}' "$operation"
}

# fn NAME OPERATIONS [CALLED...]: a function as mir.json has it, but for types;
# Loop among the operations is a loop.
fn() {
  local name=$1 operations=$2 each
  shift 2
  printf '["%s",{"params":1,"body":["Seq"' "$name"
  for each in "$@"; do printf ',{"Call":[{"Fn":["%s",{"types":[],"dicts":[]}]},[],{"local":0,"steps":[]}]},"Seq"' "$each"; done
  for each in $operations; do
    if [ "$each" = Loop ]; then printf ',"Loop","Skip"'; else assigned "$each"; fi
  done
  printf ',"Return"]}]\n'
}

# The whole, and in it what is tested: a rule that the two drawing calls share.
program() {
  fn host::list::ssd1815b_list Div/Unsigned
  fn host::draw::ssd1815b_draw Eq picture::draw::draw bus::image::ask
  fn hostwide::draw::ssd1815b_wide_draw Eq picture::draw::draw
  fn bus::image::ask Lt/Unsigned bus::image::short
  fn bus::image::short "${1:-Sub/Unsigned}"
  fn picture::draw::draw Offset picture::rows::around
  fn picture::rows::around "${2:-Sub/Unsigned}"
}

# listed: the functions that stand on standard input, a line each, as a library's.
listed() { printf '['; paste -sd, -; printf ']'; }

# read_of: .ci/divides on the program that stands on standard input.
read_of() {
  listed > "$here/program"
  ran .ci/divides source "$here/program"
}

read_of < <(program)
passed 'a rule that subtracts'
check 'a rule that subtracts: how many' out_is 'divides source: 6 functions looked at, none divides'
for operation in Rem/Unsigned Div/Signed Modulo FloatDiv; do
  read_of < <(program Sub/Unsigned "$operation")
  refused "$operation" 'picture::rows::around: has (rem|div|modulo|floatdiv)$'
done
read_of < <(program Sub/Unsigned Mul/Unsigned)
refused 'a row rule that multiplies' 'picture::rows::around: has mul$'
read_of < <(program Sub/Unsigned 'Eq Loop')
refused 'a row rule in a loop' 'picture::rows::around: has a loop$'
read_of < <(program; fn picture::rows::on Eq picture::rows::back; fn picture::rows::back Eq picture::rows::on)
refused 'a row rule that comes back to itself' '^picture::rows::on: calls itself$'
read_of < <(program; fn picture::row::fill 'Mul/Unsigned Loop')
passed 'other drawing that multiplies, in a loop'
read_of < <(program Rem/Unsigned)
refused 'in another crate' '^host::draw::ssd1815b_draw > bus::image::ask > bus::image::short: has rem$'
read_of < <(program; fn picture::rows::unused Rem/Unsigned)
refused 'in the drawing, and not reached' '^picture::rows::unused: has rem$'
read_of < <(program; fn hostlater::draw_row::ssd1815b_draw_row Eq later::one; fn later::one Rem/Unsigned)
refused 'a drawing call that is new' '^hostlater::draw_row::ssd1815b_draw_row > later::one: has rem$'
read_of < <(program; fn picture::row::long "$(printf 'Eq %.0s' {1..2000})Rem/Unsigned")
refused 'far down in a function' '^picture::row::long: has rem$'
read_of < <(program; fn later::ssd1815b_draw Eq)
check 'two calls of one name' err_has 'two functions are ssd1815b_draw: host::draw::ssd1815b_draw and later::ssd1815b_draw'
read_of < <(program | sed 's/{"Call":\[{"Fn":\["bus::image::ask"/{"CallV":[{"Fn":["bus::image::ask"/')
refused 'a call through a pointer' '^host::draw::ssd1815b_draw: has callv$'
# by_method IN TRAIT HANDED: the program, where IN begins with a call of a method
# of the trait, and that call is handed another one.
by_method() {
  local call
  printf -v call '{"Call":[{"Method":[%s,0,{"types":[],"dicts":[%s]}]},[],{"local":0,"steps":[]}]}' "$2" "$3"
  program | sed "/^\[\"$1\",{\"params\"/s/\"body\":\[\"Seq\"/&,$call,\"Seq\"/"
}
tried='{"Impl":["bus::image::Tried",[],[]]}'
read_of < <(by_method bus::image::ask "$tried" ''; fn bus::image::Tried::tried Eq; fn bus::image::Try::again Rem/Unsigned)
refused 'a call by a trait that nobody handed' '^host::draw::ssd1815b_draw > bus::image::ask: has a call by method of impl$'
read_of < <(by_method bus::image::ask '{"Object":0}' '')
refused 'a call by what is not known' '^host::draw::ssd1815b_draw > bus::image::ask: has a call by method of object$'
read_of < <(by_method bus::image::short '{"Given":0}' '{"Given":1}'; fn bus::image::Tried::tried Rem/Unsigned)
passed 'a method of a trait that was handed'
read_of < <(by_method bus::image::short '{"Given":0}' "$tried"; fn bus::image::Tried::tried Rem/Unsigned)
refused 'a trait that a method is handed' '^host::draw::ssd1815b_draw > bus::image::ask > bus::image::short > bus::image::Tried::tried: has rem$'
read_of < <(by_method picture::rows::around '{"Given":0}' "$tried"; fn bus::image::Tried::tried 'Mul/Unsigned Loop')
refused 'the same in the row rule, where it multiplies' '^picture::rows::around > bus::image::Tried::tried: has mul$'
refused 'the same in the row rule, where it loops' '^picture::rows::around > bus::image::Tried::tried: has a loop$'
# handed TRAIT: the program, where the call of bus::image::short is handed it.
handed() { program | sed "/\"bus::image::ask\",{\"params\"/s/\"dicts\":\[\]/\"dicts\":[$1]/"; }
read_of < <(handed '{"Given":0}'; fn bus::image::Tried::tried Rem/Unsigned)
passed 'a trait that a call hands on'
read_of < <(handed '{"Impl":["bus::image::Tried",[],[]]}'; fn bus::image::Tried::tried Rem/Unsigned)
refused 'a trait that a call is handed' '^host::draw::ssd1815b_draw > bus::image::ask > bus::image::Tried::tried: has rem$'
read_of < <(handed '{"Impl":["bus::image::Tried",[],[{"Impl":["bus::image::Inner",[],[]]}]]}'; fn bus::image::Tried::tried Eq; fn bus::image::Inner::tried Rem/Unsigned)
refused 'a trait within it' '^host::draw::ssd1815b_draw > bus::image::ask > bus::image::Inner::tried: has rem$'
read_of < <(handed '{"Impl":["bus::image::Tried",[],[]]}')
refused 'a trait of which nothing is there' '^host::draw::ssd1815b_draw > bus::image::ask: has a call that is handed bus::image::Tried, of which nothing is there$'
read_of < <(handed '{"Object":0}')
refused 'a trait that is not known' '^host::draw::ssd1815b_draw > bus::image::ask: has a trait by object$'
read_of < <(program | sed '/^\["bus::image::short",{"params"/s/"params":1/"params":1,"generics":{"bounds":[{"of":"core::Try"}]}/'
  fn core::Try::tried+decl Rem/Unsigned; fn core::Try::again Rem/Unsigned)
refused "a trait's own function" '^host::draw::ssd1815b_draw > bus::image::ask > bus::image::short > core::Try::again: has rem$'
check "a trait's own function: no more" out_is 'host::draw::ssd1815b_draw > bus::image::ask > bus::image::short > core::Try::again: has rem'
read_of < <(program | sed '/^\["picture::rows::around"/d'; fn picture::rows::around Eq core::steps; fn core::steps 'Eq Loop')
refused 'what the row rule reaches, in a loop' 'picture::rows::around > core::steps: has a loop$'
read_of < <(program | sed '/^\["picture::rows::around"/d'; fn picture::rows::around Eq core::steps; fn core::steps Mul/Unsigned)
refused 'what the row rule reaches, which multiplies' 'picture::rows::around > core::steps: has mul$'
read_of < <(program | sed '/^\["picture::rows::around"/d'; fn picture::rows::around Eq core::steps; fn core::steps Sub/Unsigned core::steps)
refused 'what the row rule reaches, which calls itself' 'picture::rows::around > core::steps: calls itself$'
read_of < <(program | sed '/^\["picture::rows::around"/d'; fn picture::rows::around Eq core::steps; fn core::steps Eq core::back; fn core::back Eq core::steps)
refused 'what the row rule reaches, which comes back to itself' 'picture::rows::around > core::steps > core::back: calls itself$'
read_of < <(program Sub/Unsigned '{"Map":{"Div":"Unsigned"}}')
refused 'an operation of many numbers at once' 'picture::rows::around: has map div$'
read_of < <(program | sed '/"picture::draw::draw",{"params"/s/"Op2":/"Vec2":/')
refused 'a value that is not known' '^.*picture::draw::draw: has vec2$'
read_of < <(program | sed '/"picture::draw::draw",{"params"/s/"Return"/"Stop"/')
refused 'a statement that is not known' '^.*picture::draw::draw: has stop$'
read_of < <(program | sed '/^\["bus::image::short"/d')
refused 'a function that is not there' '^host::draw::ssd1815b_draw > bus::image::ask > bus::image::short: not there$'
read_of < <(program | sed '/^\["hostwide/d')
refused 'a call that is not there' '^ssd1815b_wide_draw: not there$'
program Rem/Unsigned | sed -n 1,4p | listed > "$here/program"
program Rem/Unsigned | tail -n +5 | listed > "$here/other"
ran .ci/divides source "$here/program" "$here/other"
refused 'in the second of two programs' '^host::draw::ssd1815b_draw > bus::image::ask > bus::image::short: has rem$'
read_of < <(program | sed s/Op2/Apply/)
check 'another way of writing' err_has 'no division is found anywhere'
program > "$here/program"
ran .ci/divides source "$here/program"
check 'what is no list of functions' err_has 'this is not what rt lib leaves of a library'

checks_end divides
