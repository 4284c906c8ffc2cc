# shellcheck shell=bash
# What the test groups and the gate share: comparing, counting, and the last line.
#
# A group is an executable file tests/groups/NAME. The gate runs it in the root of the repository. A
# group in bash reads this file, compares, and ends with `finish`:
#
#     . tests/lib.sh
#     same 'what is compared' "$expected" "$actual"
#     finish
#
# A group in Python does the same by tests/library.py.
#
# The counts are variables of the group's shell. A comparison in a subshell, as in a loop behind a
# pipe, would be lost, so it stops the group, which the gate then counts as failed. Give a command its
# input by `writes .. <FILE` or `writes .. < <(COMMAND)`, not by a pipe.

passed=0 failed=0

in_main_shell() {
    [ "$BASHPID" = "$$" ] && return
    printf 'FAILED: %s: compared in a subshell, where it is not counted\n' "$1"
    kill "$$"
    exit 1
}

pass() { # NAME
    in_main_shell "$1"
    passed=$((passed + 1))
    printf 'ok: %s\n' "$1"
}

fail() { # NAME
    in_main_shell "$1"
    failed=$((failed + 1))
    printf 'FAILED: %s\n' "$1"
}

# Prints the first lines in which two files differ.
short_diff() { # EXPECTED_FILE ACTUAL_FILE
    diff -a -U1 --label expected --label actual "$1" "$2" | cat -v | cut -c 1-160 | head -n 16
}

# Compares two texts. Trailing newlines and zero bytes do not live through $(..): compare files for those.
same() { # NAME EXPECTED ACTUAL
    if [ "$2" = "$3" ]; then
        pass "$1"
    else
        fail "$1"
        short_diff <(printf '%s\n' "$2") <(printf '%s\n' "$3")
    fi
}

# Compares two files, byte by byte. A file that is missing is a failure.
same_files() { # NAME EXPECTED_FILE ACTUAL_FILE
    if cmp -s "$2" "$3"; then
        pass "$1"
    else
        fail "$1"
        short_diff "$2" "$3" 2>&1
    fi
}

# Runs a command, which must end with status 0 and write what a file has. Its standard input is that
# of this call.
writes() { # NAME EXPECTED_FILE COMMAND...
    local name=$1 expected=$2 wrote status
    shift 2
    wrote=$(mktemp) || { fail "$name: no temporary file"; return; }
    "$@" >"$wrote"
    status=$?
    if [ "$status" -eq 0 ]; then
        same_files "$name" "$expected" "$wrote"
    else
        fail "$name: the command ended with status $status"
    fi
    rm -f "$wrote"
}

# Runs a command, which must end with another status than 0 and say a text on standard error.
fails() { # NAME TEXT COMMAND...
    local name=$1 text=$2 said status
    shift 2
    said=$("$@" 2>&1 >/dev/null)
    status=$?
    if [ "$status" -eq 0 ]; then
        fail "$name: the command ended with status 0"
    elif [[ $said != *"$text"* ]]; then
        fail "$name: standard error has no '$text'"
        printf '%s\n' "$said" | head -n 5
    else
        pass "$name"
    fi
}

# Builds what a group runs, by tests/build. A build that fails is a failure, and ends the group.
needs() { # NAME...
    tests/build "$@" && return
    fail "tests/build $*"
    finish
}

# Adds the counts that stand in the last line of what a step wrote, `N passed, M failed`. A step is
# one failure more where that line is missing, where it counts nothing, and where its status is not 0
# though it counts no failure.
add_counts() { # NAME STATUS FILE
    local last
    last=$(tail -n 1 "$3")
    if ! [[ $last =~ ^([0-9]{1,9})\ passed,\ ([0-9]{1,9})\ failed$ ]]; then
        fail "$1: its last line is not 'N passed, M failed' (status $2)"
        return
    fi
    local more_passed=$((10#${BASH_REMATCH[1]})) more_failed=$((10#${BASH_REMATCH[2]}))
    passed=$((passed + more_passed)) failed=$((failed + more_failed))
    if [ "$more_failed" -gt 0 ]; then
        return
    elif [ "$2" -ne 0 ]; then
        fail "$1: it counts no failure, and its status is $2"
    elif [ "$more_passed" -eq 0 ]; then
        fail "$1: it counts nothing"
    fi
}

# Adds the counts of `rt ci`: one for each library and program proved, and for each must-fail edit refused. It does not count an
# edit that it cannot apply or read, but says on its line `rt: ok` how many those are: here each is a failure. So are a line that is
# missing, and a count that does not come to the crates of crates.txt and the edits of that line.
add_ci() { # STATUS FILE
    local had=$passed failures=$failed ok listed refused=0 bad=0
    add_counts 'rt ci' "$1" "$2"
    [ "$failed" -eq "$failures" ] || return
    ok=$(grep '^rt: ok;' "$2") || { fail "rt ci: it has no line 'rt: ok'"; return; }
    listed=$(grep -c '^[^#[:space:]]' crates.txt)
    [[ $ok =~ \;\ must-fail\ edits:\ ([0-9]{1,9})\ refused ]] && refused=${BASH_REMATCH[1]}
    [[ $ok =~ \;\ must-fail\ edits:\ [^\;]*,\ ([0-9]{1,9})\ bad ]] && bad=${BASH_REMATCH[1]}
    if [ "$bad" -gt 0 ]; then
        failed=$((failed + bad))
        printf 'FAILED: rt ci: must-fail edits that it cannot try: %s\n' "$bad"
    fi
    [ $((passed - had)) -eq $((listed + refused)) ] ||
        fail "rt ci: it counts $((passed - had)), and crates.txt lists $listed, of whose edits $refused are refused"
}

# Prints what rt ci or rt must-fail said of a must-fail edit, nothing where it did not try it.
said_of() { # EDIT FILE
    local label=${1#crates/}
    label="rt: must-fail ${label/\/must-fail\//\/}: "
    awk -v label="$label" 'index($0, label) == 1 { print substr($0, length(label) + 1); exit }' "$2"
}

# Counts a failure for each must-fail edit that was not tried, as those of a crate that is not listed.
count_untried() { # FILE: what rt ci wrote
    local edit
    for edit in crates/*/must-fail/*.edit; do
        [ ! -e "$edit" ] || [ -n "$(said_of "$edit" "$1")" ] || fail "$edit: not tried"
    done
}

# Prints the last line, and ends with status 0 only where something was compared and nothing failed.
finish() {
    [ $((passed + failed)) -gt 0 ] || fail 'nothing was compared'
    printf '%s passed, %s failed\n' "$passed" "$failed"
    [ "$failed" -eq 0 ]
    exit
}
