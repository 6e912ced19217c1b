#!/usr/bin/env bash
# What the program `rehearse` does with its arguments and its lines. Takes crates/rehearse/out/rehearse as `rt ci` or `rt run` made it.
set -u
cd "$(dirname "$0")/.." || exit 1
program=crates/rehearse/out/rehearse
passed=0
failed=0
work=$(mktemp -d)
trap 'rm -rf "$work"' EXIT

verdict() { # NAME STATUS: counts one check
    if [ "$2" = 0 ]; then
        echo "ok: $1"
        passed=$((passed + 1))
    else
        echo "FAILED: $1"
        failed=$((failed + 1))
    fi
}

# Arguments that are refused: status 1, nothing on standard output, and a message of one line that has the given words.
refused() { # WORDS ARGUMENTS..
    local words=$1
    shift
    printf 'show\n' | "$program" "$@" > "$work/out" 2> "$work/err"
    local status=$?
    [ "$status" = 1 ] && [ ! -s "$work/out" ] && [ "$(wc -l < "$work/err")" = 1 ] && grep -qF -- "$words" "$work/err"
    verdict "rehearse $* is refused" $?
}

# Lines, each followed by a newline in TEXT's printf form, and what is written for them.
answers() { # NAME TEXT EXPECTED ARGUMENTS..
    local name=$1 text=$2 expected=$3
    shift 3
    printf "$text" | "$program" "$@" > "$work/out" 2> "$work/err"
    local status=$?
    printf "$expected" > "$work/expected"
    [ "$status" = 0 ] && [ ! -s "$work/err" ] && cmp -s "$work/expected" "$work/out"
    verdict "$name" $?
}

refused 'usage: rehearse N NEED'
refused 'usage: rehearse N NEED' 3
refused 'usage: rehearse N NEED' 3 2 1
refused 'N, the number of drives' 1 1
refused 'N, the number of drives' 33 2
refused 'N, the number of drives' three 2
refused 'N, the number of drives' '' 2
refused 'N, the number of drives' -3 2
refused 'N, the number of drives' 18446744073709551619 2
refused 'NEED, the number' 3 0
refused 'NEED, the number' 3 3
refused 'NEED, the number' 3 2x
refused 'NEED, the number' 3 ''

answers 'show prints a line a drive' 'show\n' 'drive 0 in:\ndrive 1 in:\ndrive 2 in:\n' 3 2
answers 'the fewest drives' 'show\n' 'drive 0 in:\ndrive 1 in:\n' 2 1
answers 'no lines, no answers' '' '' 3 2
answers 'a last line without its end' 'show' 'drive 0 in:\ndrive 1 in:\n' 2 1
answers 'empty lines and comments are passed over' '\n   \n# show\n#\n' '' 3 2
answers 'a line with an unknown word' 'shout\nshow\n' 'error: unknown command\ndrive 0 in:\ndrive 1 in:\n' 2 1
answers 'a line that is not text' '\377\376 1\n' 'error: unknown command\n' 3 2
answers 'spaces before, between and after' '  read   7  \n' 'ok none\n' 3 2
answers 'too few and too many words' 'write 1\nwrite 1 2 3\n' 'error: a word is missing\nerror: there are too many words\n' 3 2
answers 'words that are not numbers' 'read x\nwrite 1 -1\nspoil 1 2 v\ngive up O\n' \
    'error: word 2 is not a number\nerror: word 3 is not a number\nerror: word 4 is not a number\nerror: word 3 is not a number\n' 3 2
answers 'hexadecimal digits' 'begin 1 abc\nput 1 0g\nput 1 aBcD\nbegin 1\n' \
    'error: odd number of hexadecimal digits\nerror: not a hexadecimal digit\nok version 1\nok version 2\n' 3 2
answers 'a number of any length' 'read 99999999999999999999999999\n' 'refused 1\n' 3 2

# 32 drives, and an object of the largest size on one line, put and read with as few drives as may be; one byte more is refused.
[ "$(printf 'show\n' | "$program" 32 31 | wc -l)" = 32 ]
verdict 'the most drives' $?
digits() { head -c "$1" /dev/urandom | od -An -v -tx1 | tr -d ' \n'; }
largest=$(digits 65536)
printf 'put 1 %s\nout 0\nout 3\nout 9\nout 13\nread 1\n' "$largest" | "$program" 14 10 > "$work/out"
printf 'ok version 1\nok\nok\nok\nok\nok version 1 %s\n' "$largest" | cmp -s - "$work/out"
verdict 'an object of 65,536 bytes' $?
[ "$(printf 'put 1 %s00\n' "$largest" | "$program" 3 2)" = 'refused 1' ]
verdict 'an object of 65,537 bytes is refused' $?

echo "$passed passed, $failed failed"
[ "$failed" = 0 ]
