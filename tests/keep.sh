#!/usr/bin/env bash
# What the programs `keep` and `count` do on real files: starts, drives that are missing, kills at random moments, and the answers of `rehearse`.
# Takes the programs as `rt ci` or `rt run` made them; KEEP, COUNT and REHEARSE name others.
set -u
cd "$(dirname "$0")/.." || exit 1
keep=$(realpath "${KEEP:-crates/keep/out/keep}")
count=$(realpath "${COUNT:-crates/count/out/count}")
rehearse=$(realpath "${REHEARSE:-crates/rehearse/out/rehearse}")
kills=${KILLS:-8}
passed=0
failed=0
work=$(mktemp -d)
trap 'rm -rf "$work"' EXIT
cd "$work" || exit 1

verdict() { # NAME STATUS: counts one check
    if [ "$2" = 0 ]; then
        echo "ok: $1"
        passed=$((passed + 1))
    else
        echo "FAILED: $1"
        failed=$((failed + 1))
    fi
}

# Lines in TEXT's printf form to keep, and what it writes for them; it ends with status 0.
answers() { # NAME TEXT EXPECTED ARGUMENTS..
    local name=$1 text=$2 expected=$3
    shift 3
    printf "$text" | "$keep" "$@" > out 2> err
    local status=$?
    printf "$expected" > expected
    [ "$status" = 0 ] && cmp -s expected out
    verdict "$name" $?
}

# A start that is refused: status 1, nothing on standard output, these words on standard error, and nothing said behind them by Rattle.
refused() { # NAME WORDS ARGUMENTS..
    local name=$1 words=$2
    shift 2
    printf 'read 1\n' | "$keep" "$@" > out 2> err
    [ $? = 1 ] && [ ! -s out ] && grep -qF -- "$words" err && ! grep -q '^Error' err
    verdict "$name" $?
}

# ---- starts
"$keep" --help > out 2> err && grep -q 'settle all' out
verdict "--help" $?
refused "no arguments" "usage"
refused "a directory with no archive, and no sizes" "no archive here" a
[ ! -e a ]
verdict "a refused start makes nothing" $?
refused "a directory without a name" "must not be empty" "" 3 2
refused "one drive" "N, the number of drives" a 1 1
refused "all drives needed" "NEED, the number" a 3 3
answers "a first start" 'read 1\nput 1 0102030405\nread 1\n' 'ok none\nok version 1\nok version 1 0102030405\n' a 3 2
[ "$(stat -c %s a/drive-00 a/drive-01 a/drive-02 | sort -u)" = 67132416 ] && [ "$(stat -c %s a/next)" = 2060 ]
verdict "the files of a first start" $?
[ -z "$(find a -name 'lock-*')" ]
verdict "no lock is left by a keep that ended" $?
answers "a later start: unsure, settled, read" 'read 1\nsettle 1\nwrite 1 0\nwrite 1 1\nwrite 1 2\nfinish 1\nread 1\n' \
    'refused 2\nok found 1 version 1025\nok\nok\nok\nok version 1025\nok version 1025 0102030405\n' a
answers "the same sizes may be said again" 'read 2\n' 'refused 2\n' a 3 2
sha256sum a/* > before
refused "other sizes" "this archive has 3 drives" a 4 2
sha256sum a/* | cmp -s before -
verdict "a refused start changes nothing" $?

# ---- the text file
cp -r --sparse=always a b
sed -i 's/^need 2/neds 2/' b/archive
refused "a text file with a wrong line" "line 3" b
sed -i 's/^neds 2/need 2/; /^drive 2/d' b/archive
refused "a text file that lacks a drive" "2 drives are named" b
mkdir elsewhere && mv b/drive-02 elsewhere/
echo "drive 2 $work/elsewhere/drive-02" >> b/archive
answers "a drive that lies elsewhere" 'settle 1\nwrite 1 0\nwrite 1 1\nwrite 1 2\nfinish 1\nread 1\n' \
    'ok found 1025 version 2049\nok\nok\nok\nok version 2049\nok version 2049 0102030405\n' b

# ---- drives
rm -rf a
answers "a new archive" 'put 1 aabbcc\n' 'ok version 1\n' a 3 2
mv a/drive-01 away
answers "a drive whose file is missing is out" 'settle all\nread 1\nin 1\nin 7\n' \
    "ok found 1 none 255 refused 0\nok version 1026 aabbcc\nerror: drive 1 can't be opened: No such file or directory (os error 2)\nrefused 1\n" a
grep -q 'drive 1 is out' err && [ ! -e a/drive-01 ]
verdict "and it is told of, and not made" $?
mv away a/drive-01
"$count" a > out 2> err && head -2 out > first && printf 'weak 1: 1\nobject 0 none\n' | cmp -s first -
verdict "count: a drive that lacks a piece is weak" $?
printf 'settle all\nheal\ncount\n' | "$keep" a > out 2> err
sed -n 3p out | grep -qx 'weak 0:'
verdict "healed" $?
rm a/drive-02
answers "new makes a drive's file, and only where there is none" 'new 2\nnew 1\nnew 3\nnew 2\n' \
    "ok\nerror: drive 1 can't be made: File exists (os error 17)\nrefused 1\nerror: drive 2 can't be made: File exists (os error 17)\n" a
printf 'settle 1\nwrite 1 0\nwrite 1 1\nwrite 1 2\nfinish 1\nread 1\n' | "$keep" a > out 2> err
tail -1 out | grep -q 'aabbcc$'
verdict "an object is written anew onto a new drive" $?
truncate -s 10 a/drive-00
printf 'settle 1\nwrite 1 0\nwrite 1 1\nwrite 1 2\nfinish 1\nread 1\n' | "$keep" a > out 2> err
tail -1 out | grep -q 'aabbcc$'
verdict "a file that is too short is used as it is" $?
rm a/next
refused "pieces, and no file of the keeper's" "refused 8" a
head -c 2060 /dev/zero > a/next
refused "a wrong sum in the keeper's file" "refused 8" a
"$count" no-such-directory > out 2> err
[ $? = 1 ] && grep -q 'no archive' err && ! grep -q '^Error' err
verdict "count where there is no archive" $?

# ---- files
head -c 65536 /dev/urandom > object
head -c 65537 /dev/zero > longer
answers "a file put and read" 'putfile 3 object\nreadfile 3 back\nreadfile 4 none\nputfile 3 longer\nputfile 3 missing\n' \
    'ok version 1\nok version 1\nok none\nrefused 1\nerror: missing: No such file or directory (os error 2)\n' f 5 3
cmp -s object back && [ ! -e none ]
verdict "it is the same" $?

# ---- a disk that no longer writes
rm f/drive-04 && ln -s /dev/full f/drive-04
printf 'settle 9\nbegin 9 0102\nwrite 9 4\nwrite 9 0\n' | "$keep" f > out 2> err
grep -q '^error: drive 4' out && grep -q 'drive-04' err && [ "$(tail -1 out)" = ok ]
verdict "a drive that fails goes out, and the step isn't answered ok" $?

# ---- a second keep
mkfifo pipe
"$keep" f < pipe > out1 2> err1 &
first=$!
exec 7> pipe
for _ in $(seq 100); do ls f | grep -q '^lock-' && break; sleep 0.05; done
refused "a second keep" "another keep works here" f
"$count" f > out 2> err
verdict "count beside a keep" $?
kill -9 $first
wait $first 2> /dev/null
exec 7>&-
[ -n "$(find f -name 'lock-*')" ] && [ "$(printf 'read 250\n' | "$keep" f 2> /dev/null)" = "refused 2" ]
verdict "a killed keep leaves its lock, which doesn't stand in the way" $?
[ -z "$(find f -name 'lock-*')" ]
verdict "and what it left is gone" $?

# ---- killed at random moments: nothing that was answered is lost
RANDOM=7
printf '' | "$keep" k 4 2 2> /dev/null
: > answered
for round in $(seq "$kills"); do
    { for i in 0 1 2 3 4 5; do echo "settle $i"; for d in 0 1 2 3; do echo "write $i $d"; done; echo "finish $i"; done
      for turn in $(seq 400); do echo "put $((RANDOM % 6)) $(printf '%02x%06x' "$round" "$turn")"; done; } > lines
    "$keep" k < lines > out 2> err &
    victim=$!
    sleep "$((RANDOM % 2)).$((RANDOM % 10))$((RANDOM % 10))"
    kill -9 $victim 2> /dev/null
    wait $victim 2> /dev/null
    cp out "out.$round"; cp lines "lines.$round"
done
# Of each put: whether it was answered ok, or was being played when the kill came.
for round in $(seq "$kills"); do
    n=$(wc -l < "out.$round")
    paste -d' ' "lines.$round" "out.$round" | awk -v n="$n" '
        /^put/ && NR <= n && $4 == "ok" { print "answered", $2, $3 }
        /^put/ && NR == n + 1 { print "begun", $2, $3 }' >> answered
done
printf 'settle all\nread 0\nread 1\nread 2\nread 3\nread 4\nread 5\n' | "$keep" k > final 2> err
grep -q 'refused 0$' <(head -1 final)
verdict "settle all after $kills kills" $?
wrong=0
for object in 0 1 2 3 4 5; do
    found=$(sed -n "$((object + 2))p" final | awk '{ print $4 }')
    awk -v o="$object" -v f="$found" '
        $2 == o && $1 == "answered" { split("", may); may[$3] = 1; any = 1 }
        $2 == o && $1 == "begun" { may[$3] = 1 }
        END { exit !(any ? f in may : f == "" || f in may) }' answered || { wrong=1; echo "object $object has '$found'"; }
done
verdict "nothing that was answered is lost ($(grep -c answered answered) puts were answered)" $wrong

# ---- against rehearse, on the same lines without stops
RANDOM=11
for turn in $(seq 150); do
    o=$((RANDOM % 4)) d=$((RANDOM % 6))
    case $((RANDOM % 14)) in
    0 | 1 | 2) echo "put $o $(printf '%04x%04x' $RANDOM $turn)" ;;
    3) echo "begin $o ab$(printf '%02x' $((turn % 256)))" ;;
    4) echo "write $o $d" ;;
    5) echo "finish $o" ;;
    6 | 7) echo "read $o" ;;
    8) echo "tidy $o $d" ;;
    9) echo "mend $o $d" ;;
    10) echo "out $((RANDOM % 5))" ;;
    11) echo "in $((RANDOM % 5))"; echo "in $((RANDOM % 5))" ;;
    12) echo "give up $o"; echo "settle $o" ;;
    13) echo "sweep $d"; echo heal; echo count ;;
    esac
done > lines
if "$rehearse" 5 3 < lines > expected 2> /dev/null && "$keep" r 5 3 < lines > out 2> err && cmp expected out; then
    verdict "keep answers as rehearse ($(wc -l < lines) lines, $(grep -c '^ok' out) of them ok)" 0
else
    verdict "keep answers as rehearse" 1
fi

echo "$passed passed, $failed failed"
[ "$failed" = 0 ]
