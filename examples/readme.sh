#!/usr/bin/env bash
# The sessions that the documents show, as they are shown: in each section that is named below the first
# fenced block is run, in a temporary folder of its own and with a free port in place of 8080, and each line
# that comes out is compared with the second block. It stops at the first difference and shows it; its last
# line says how many lines agreed.
#
#     bash examples/readme.sh                              # over ./sandesk, which builds the program
#     SANDESK=/path/of/the/program bash examples/readme.sh
#
# Exit status: 0 all lines agree; 1 a line differs; 2 there is no program, no curl, or no such session.
# It needs bash, coreutils, awk, sed, curl and sqlite3. No process that it started is there when it has ended.
set -u
export LC_ALL=C NO_PROXY='*' no_proxy='*'

# The sections that are run: a document, and the heading.
sections=(
    'README.md|A desk in six commands'
    'docs/http.md|A session'
    'docs/plans.md|Two plans of one set'
    'docs/operating.md|Backups'
    'docs/policy.md|Approve first, then look'
)

here=$(cd "$(dirname "${BASH_SOURCE[0]}")" && pwd)
SANDESK=${SANDESK:-$here/../sandesk}
top=$(mktemp -d)
document=
session=
agreed=0

finish() {
    if [ -n "$session" ]; then { kill -KILL -- "-$session"; wait "$session"; } 2> /dev/null; fi
    rm -rf "$top"
}
trap finish EXIT

# cannot WHY: there is nothing that could be run.
cannot() {
    echo "readme: $1" >&2
    exit 2
}

# block NUMBER HEADING: the lines of a fenced block of a section of the document.
block() {
    awk -v number="$1" -v heading="$2" '
        /^```/ { fences++; if (is_section) seen++; next }
        fences % 2 == 0 && /^##+ / { sub(/^#+ /, ""); is_section = ($0 == heading) }
        is_section && seen == 2 * number - 1' "$here/../$document"
}

# A port of the loopback interface at which nobody listens.
free_port() {
    local tries
    for tries in 1 2 3 4 5 6 7 8 9 10; do
        port=$((20000 + RANDOM % 20000))
        (: < "/dev/tcp/127.0.0.1/$port") 2> /dev/null || return 0
    done
}

# differs WANTED FOUND: shows a difference and ends.
differs() {
    printf '%s: line %d differs\n  expected: %s\n  found:    %s\n' "$document" $((agreed + 1)) "$1" "$2"
    if [ -s "$work/err" ]; then
        printf 'standard error was:\n'
        cat "$work/err"
    fi
    printf 'readme: %d lines agreed, line %d differs\n' "$agreed" $((agreed + 1))
    exit 1
}

# next_line: puts the next line that comes out into `found`; fails where none comes within two minutes, or
# no more comes. A line without its end counts as one.
next_line() {
    IFS= read -r -t 120 found <&3 || [ -n "$found" ]
}

# run HEADING: the session of a section, as a process group of its own, so that all of it can be ended.
run() {
    work=$(mktemp -d "$top/XXXXXX")
    free_port
    block 1 "$1" | sed "s/127\.0\.0\.1:8080/127.0.0.1:$port/g" > "$work/commands"
    block 2 "$1" > "$work/wanted"
    [ -s "$work/commands" ] && [ -s "$work/wanted" ] || cannot "$document has no session '$1'"
    ln -s "$(readlink -f "$SANDESK")" "$work/sandesk"
    ln -s "$here" "$work/examples"
    mkfifo "$work/lines"
    set -m
    (cd "$work" && exec bash commands) > "$work/lines" 2> "$work/err" < /dev/null &
    session=$!
    set +m
    exec 3< "$work/lines"
    while IFS= read -r wanted; do
        next_line || differs "$wanted" 'no line'
        [ "$found" = "$wanted" ] || differs "$wanted" "$found"
        agreed=$((agreed + 1))
        printf '%3d  %.100s\n' "$agreed" "$found"
    done < "$work/wanted"
    if next_line; then differs 'no more lines' "$found"; fi
    exec 3<&-
    wait "$session" || differs 'exit status 0' "exit status $?"
    session=
}

# ---- the program, and the sessions

[ -f "$SANDESK" ] && [ -x "$SANDESK" ] || cannot "there is no program $SANDESK"
for tool in curl sqlite3; do type -p "$tool" > /dev/null || cannot "there is no $tool"; done
# The first call builds the program where it is not built yet, and says so.
"$SANDESK" once < /dev/null > /dev/null || cannot "the program $SANDESK does not start"
for section in "${sections[@]}"; do
    document=${section%%|*}
    printf '== %s, %s\n' "$document" "${section#*|}"
    run "${section#*|}"
done
printf 'readme: all %d lines agreed\n' "$agreed"
