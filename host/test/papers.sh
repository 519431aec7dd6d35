#!/usr/bin/env bash
# Tests of .ci/papers: which lines of a paper it takes for commands, how it runs
# them, and what it says of those that fail.
#
#   papers.sh      in the repository's folder
set -euo pipefail

# shellcheck source=host/test/checks.sh
. "$(dirname "$0")/checks.sh"

# paper LINES...: .ci/papers on a paper of these lines.
paper() {
  printf '%b\n' "$@" > "$here/paper.md"
  ran .ci/papers "$here/paper.md"
}
# said PATTERN: a line of what it printed.
said() { grep -qE -- "$1" "$here/out"; }

paper 'Text.' '' '    make help   # a remark' '    git --version'
check 'indented: run' status_is 0
check 'indented: both' said '^papers: 2 commands, 2 run, 0 failed$'
check 'indented: its line' said 'paper.md:3: make help   # a remark \([0-9.]+ s\)$'

paper '```sh' 'make help' '```' '```python' 'make help' '```' '```text' 'make help' '```'
check 'fenced: sh alone is run' said '^papers: 1 commands, 1 run, 0 failed$'

paper '    make help' '    make no-such-target'
check 'a command that fails: status 1' status_is 1
check 'a command that fails: said' said 'paper.md:2: FAILED: make no-such-target'
check 'a command that fails: with what it printed' said "^    make: .* No rule to make target 'no-such-target'"

paper '    make help' '    mkae show'
check 'among commands and none: status 1' status_is 1
check 'among commands and none: said' said 'paper.md:2: among commands, and not known as one: mkae show'

# shellcheck disable=SC2016  # backquotes of the text
paper '    make help' '' 'In the text, `make no-such-target` and `make show TRACE=any.trace`.'
check 'in the text: status 1' status_is 1
check 'in the text: a target that is not there' said 'paper.md:3: FAILED: make no-such-target \(not run: in the text\)'
check 'in the text: a target that is there' said '^papers: 3 commands, 1 run, 1 failed$'

paper '    cd traces' '    make help' '' 'Then' '' '    make help'
check 'a folder is kept in its block: no Makefile there' said 'paper.md:2: FAILED: make help'
check 'a folder is kept in its block alone' said 'paper.md:6: make help'

# shellcheck disable=SC2016  # the shell of the paper has the variable
paper '    export THING=help' '    make $THING' '' 'Then' '' '    make help$THING'
check 'a variable is kept in its block' said '^papers: 3 commands, 3 run, 0 failed$'

paper '    make help' '    .ci/run   # all' '    make test'
check 'not run: status 0' status_is 0
check 'not run: the gate' said 'paper.md:2: .ci/run   # all \(not run: it is the gate, or this\)'
check 'not run: a target that is there' said 'paper.md:3: make test \(not run: the gate runs it by itself\)'
paper '    make help' '    make install' '    make install PREFIX=/usr'
check 'not run: an installation outside the copy' said '^papers: 3 commands, 1 run, 0 failed$'

# shellcheck disable=SC1003  # a backslash at the end of a line
paper '    make \\' '      help'
check 'a line that goes on' said '^papers: 1 commands, 1 run, 0 failed$'
paper 'No command.' '' '    frame 132 65' '    end'
check 'a paper with no command is no success' status_is 1

before=$(git status --porcelain)
paper '    traces/make.py mine.txt' '    make show TRACE=mine.trace'
check 'typed traces lie ready' status_is 0
check 'all is done in a copy' [ "$(git status --porcelain)" = "$before" ]

checks_end papers
