# shellcheck shell=bash disable=SC2154 # the group sets what it gives
# What the groups share that compare with the second program: drawn cases, and spoiled answers, which must be found.
#
# A group reads tests/lib.sh, then this file, and gives
#
#     work                 a temporary folder
#     kind                 the kind of its cases, as it stands behind the second program's commands, with a dash, or ''
#     groups               how many groups of cases there are
#     outcomes             what the cases must reach, as patterns of grep -E; a wrong record or line at several places, and
#                          wrong checks at more than the seven places of a single block
#     also                 what the cases must show besides, in the second program's words, and nothing else: editions, and
#                          names above 16
#     compare SEED COUNT   a function that compares so many cases and prints what the second program says: tests/compare or
#                          one like it

second=target/tests/second

# What bundles show of editions: each of the two, each for a number of names that it does not fit, and others.
# shellcheck disable=SC2034 # the groups read it
editions=(
    'edition 1' 'edition 2' 'edition 1 for 17 names or more' 'edition 2 for 16 names or fewer' 'an edition that there is not'
)

# Every group agrees, no group is empty, no case is left out, every outcome is reached, and all is shown that is to be shown. What
# the comparison said stays in $work/said.
compare_drawn() { # SEED COUNT
    local agrees group number outcome shown named=0 sum=0
    if ! compare "$1" "$2" >"$work/said"; then
        fail "seed $1: not all agree"
        cut -c 1-2000 "$work/said"
        return
    fi
    while read -r agrees group number; do
        if [ "$agrees" != agree: ] || [ "$number" -eq 0 ]; then
            fail "seed $1: $agrees $group $number"
            continue
        fi
        pass "seed $1: $group, $number cases agree"
        named=$((named + 1)) sum=$((sum + number))
    done < <(grep -v -E '^(outcome|also): ' "$work/said")
    same "seed $1: every group and every case is compared" "$groups groups, $2 cases" "$named groups, $sum cases"
    for outcome in "${outcomes[@]}"; do
        reached "seed $1" "$outcome"
    done
    for shown in "${also[@]}"; do
        shown_by_cases "seed $1" "$shown"
    done
    same "seed $1: nothing else is shown" "${#also[@]}" "$(grep -c '^also: ' "$work/said")"
}

shown_by_cases() { # NAME WORDS
    local line
    if line=$(grep -F "also: $2: " "$work/said"); then
        pass "$1: ${line#also: }"
    else
        fail "$1: no case shows: $2"
    fi
}

reached() { # NAME OUTCOME
    local line least=1
    case $2 in *6[1-5] | *14) least=5 ;; *'refused +2' | *'refused  2') least=8 ;; esac
    line=$(grep -E "^outcome: $2: " "$work/said")
    if [[ $line =~ :\ ([1-9][0-9]*)\ cases,\ different\ places:\ ([0-9]+)$ ]] && [ "${BASH_REMATCH[2]}" -ge "$least" ]; then
        pass "$1: ${line#outcome: }"
    else
        fail "$1: the outcome $2 at $least places or more: '$line'"
    fi
}

# What the comparison said last has an outcome in so many cases or more.
often() { # NAME OUTCOME LEAST
    local line
    line=$(grep -E "^outcome: $2: " "$work/said")
    if [[ $line =~ :\ ([0-9]+)\ cases, ]] && [ "${BASH_REMATCH[1]}" -ge "$3" ]; then
        pass "$1: $2 in $3 cases or more"
    else
        fail "$1: the outcome $2 in $3 cases or more: '$line'"
    fi
}

# Draws cases from seed 1 into $work/cases, and the second program's own answers into $work/answers. They are what is spoiled
# below, so that what fails there is the comparison, whatever the program under test answers.
answers_to_spoil() { # COUNT
    "$second" "draw$kind" 1 "$1" "$work/cases"
    "$second" "answer$kind" "$work/cases" "$work/answers"
    "$second" "compare$kind" "$work/cases" "$work/answers" >"$work/said"
    same "$1 answers agree as they are" 0 "$?"
    same 'no word of a difference' '' "$(grep -v -E '^(agree|outcome|also): ' "$work/said")"
}

# Spoiled answers must be told from the right ones, by this first line.
found() { # NAME TEXT FILE
    if "$second" "compare$kind" "$work/cases" "$3" >"$work/said" 2>&1; then
        fail "$1: the comparison ended with status 0"
    else
        same "$1" "$2" "$(head -n 1 "$work/said")"
    fi
}
flipped() { # NAME BYTE: one bit in one byte of a copy of the answers
    local byte
    cp "$work/answers" "$work/spoiled"
    byte=$(od -A n -t u1 -j "$2" -N 1 "$work/answers")
    printf '%b' "$(printf '\\x%02x' $((byte ^ 1)))" |
        dd of="$work/spoiled" bs=1 seek="$2" conv=notrunc status=none
    found "$1" 'disagree: 1 cases; the smallest is' "$work/spoiled"
}
cut_and_lengthened() { # COUNT: of the cases
    head -c -1 "$work/answers" >"$work/spoiled"
    found 'the last byte missing' "disagree: the file of answers ends in the answer to case $(($1 - 1))" "$work/spoiled"
    { cat "$work/answers"; printf '\0'; } >"$work/spoiled"
    found 'one byte more' 'disagree: the file of answers goes on after the last case' "$work/spoiled"
}
