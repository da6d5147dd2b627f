#!/bin/sh
# Runs the listing program on lines that it can read and lines that it cannot, and compares what it writes to the byte. Run it from the
# repository's root, after `rt ci`. What is right comes from the example of docs/RULES.md and from tests/pebbling.py, a model of the
# recursion that was written from the rules alone. Prints a line for each case that failed and then the count; fails if any did.
# A first argument names another program to try, which this machine can run. A program that does not answer is ended after ten seconds,
# and its case has failed.
set -u

program=${1:-$PWD/crates/pebbles/out/pebbles}
if ! [ -x "$program" ]; then
    echo "pebbles.sh: $program is not there; run 'rt ci', or 'rt run' in crates/pebbles, first." >&2
    exit 2
fi

for needed in python3 timeout; do
    if ! command -v "$needed" >/dev/null 2>&1; then
        echo "pebbles.sh: this needs $needed, which is not on the PATH." >&2
        exit 2
    fi
done

work=$(mktemp -d) || exit 2
trap 'rm -rf "$work"' EXIT
if [ $# -eq 0 ]; then
    printf '#!/bin/sh\nexec "%s/tools/run" "%s"\n' "$PWD" "$program" >"$work/pebbles"
    chmod +x "$work/pebbles"
    program=$work/pebbles
fi
passed=0
failed=0

# verdict NAME STATUS: the program ended with that status, said nothing on standard error, and wrote $work/right
verdict() {
    if [ "$2" -eq 0 ] && [ ! -s "$work/err" ] && cmp -s "$work/out" "$work/right"; then
        passed=$((passed + 1))
    else
        failed=$((failed + 1))
        echo "failed: $1"
    fi
}

# compare NAME: what the program writes for $work/in is $work/right
compare() {
    "$program" <"$work/in" >"$work/out" 2>"$work/err"
    verdict "$1" $?
}

# lists NAME INPUT LINE: INPUT, as printf writes it, gets the model's listing for LINE
lists() {
    printf "$2" >"$work/in"
    printf '%s\n' "$3" | python3 tests/pebbling.py >"$work/right" || exit 2
    compare "$1"
}

# refuses NAME INPUT: INPUT, as printf writes it, is refused
refuses() {
    printf "$2" >"$work/in"
    printf 'refused\n' >"$work/right"
    compare "$1"
}

# ---- the rules' example, with LF, without it, and with bytes after it

cp crates/pebbles/stdout "$work/right"
printf 'optimal 2\n' >"$work/in"
compare "the rules' example"
printf 'optimal 2' >"$work/in"
compare "the rules' example, no LF"
printf 'optimal 2\nrushing 3\n' >"$work/in"
compare "the rules' example, a second line"
printf 'optimal 2\n\000\377\r' >"$work/in"
compare "the rules' example, any bytes after LF"
{ printf 'optimal 2\n' && head -c 1000000 /dev/zero; } >"$work/in"
compare "the rules' example, a megabyte after LF"

# ---- every line that can be read

for name in rushing speed-1 speed-2 optimal; do
    k=0
    while [ "$k" -le 10 ]; do
        lists "$name $k" "$name $k\n" "$name $k"
        k=$((k + 1))
    done
done
lists "optimal 10, no LF" 'optimal 10' 'optimal 10'
lists "speed-1 0, no LF" 'speed-1 0' 'speed-1 0'

# ---- lines that cannot be read

refuses "nothing" ''
refuses "LF alone" '\n'
refuses "LF first" '\noptimal 2\n'
refuses "a name alone" 'optimal'
refuses "a name and LF" 'optimal\n'
refuses "a name and a space" 'optimal '
refuses "a name, a space and LF" 'optimal \n'
refuses "a number alone" '2\n'
refuses "two spaces" 'optimal  2\n'
refuses "a space in front" ' optimal 2\n'
refuses "a space behind" 'optimal 2 '
refuses "a space before LF" 'optimal 2 \n'
refuses "a tab" 'optimal\t2\n'
refuses "no space" 'optimal2\n'
refuses "a leading zero" 'optimal 02\n'
refuses "two zeros" 'optimal 00\n'
refuses "k = 11" 'optimal 11\n'
refuses "k = 20" 'optimal 20\n'
refuses "k = 100" 'optimal 100\n'
refuses "a longer number" 'optimal 99999999999999999999\n'
refuses "k = 2^32 + 2" 'optimal 4294967298\n'
refuses "k = 256" 'optimal 256\n'
refuses "a sign" 'optimal -1\n'
refuses "a plus sign" 'optimal +1\n'
refuses "a fraction" 'optimal 1.0\n'
refuses "hexadecimal" 'optimal a\n'
refuses "a letter behind" 'optimal 10x\n'
refuses "a letter behind 1" 'optimal 1x\n'
refuses "CR LF" 'optimal 2\r\n'
refuses "CR" 'optimal 2\r'
refuses "NUL behind" 'optimal 2\000'
refuses "NUL before LF" 'optimal 2\000\n'
refuses "NUL in the name" 'optima\000 2\n'
refuses "NUL in front" '\000optimal 2\n'
refuses "a capital letter" 'Optimal 2\n'
refuses "a short name" 'optima 2\n'
refuses "a long name" 'optimall 2\n'
refuses "speed-0" 'speed-0 1\n'
refuses "speed-3" 'speed-3 1\n'
refuses "speed" 'speed 1\n'
refuses "rushing in capitals" 'RUSHING 1\n'
refuses "a byte that is no ASCII" 'optimal 2\377\n'
refuses "words in the other order" '2 optimal\n'

printf 'refused\n' >"$work/right"
{ printf 'optimal 2' && head -c 1000000 /dev/zero | tr '\000' ' '; } >"$work/in"
compare "a megabyte of spaces behind, no LF"
{ printf 'optimal 2' && head -c 1000000 /dev/zero | tr '\000' ' ' && echo; } >"$work/in"
compare "a megabyte of spaces before LF"
{ printf 'optimal ' && head -c 1000000 /dev/zero | tr '\000' '0'; } >"$work/in"
compare "a number of a million digits"
head -c 1000000 /dev/zero >"$work/in"
compare "a megabyte of NUL"
head -c 1000000 /dev/zero | tr '\000' 'o' >"$work/in"
compare "a megabyte of letters"

# ---- the answer comes as soon as the bytes decide, while the writer still holds the pipe

# held NAME INPUT [INPUT..]: the INPUTs, as printf writes them, come one after the other on a pipe that stays open, and the program
# answers all the same
held() {
    name=$1
    shift
    mkfifo "$work/pipe" || exit 2
    exec 3<>"$work/pipe"
    printf "$1" >&3
    shift
    for piece in "$@"; do
        sleep 0.1
        printf "$piece"
    done >&3 &
    timeout 10 "$program" <"$work/pipe" >"$work/out" 2>"$work/err" 3>&-
    status=$?
    wait
    exec 3>&-
    rm "$work/pipe"
    verdict "$name" "$status"
}

cp crates/pebbles/stdout "$work/right"
held "an open pipe" 'optimal 2\n'
held "an open pipe, a second line" 'optimal 2\nrushing 3\n'
held "an open pipe, bytes one at a time" o p t i m a l ' ' 2 '\n'
held "an open pipe, LF later" 'optimal 2' '\n'
printf 'refused\n' >"$work/right"
held "an open pipe, LF alone" '\n'
held "an open pipe, eleven bytes" 'optimal 100'
held "an open pipe, eleven bytes one at a time" o p t i m a l ' ' 1 0 0
held "an open pipe, a short line that cannot be read" 'optimal\n'

# typed NAME TEXT: TEXT is typed at a terminal that stays open
typed() {
    python3 tests/terminal.py typed "$2" "$program" >"$work/out" 2>"$work/err"
    verdict "$1" $?
}

cp crates/pebbles/stdout "$work/right"
typed "a terminal" 'optimal 2\n'
typed "a terminal, its end typed" 'optimal 2\004\004'

# ---- and no sooner: a line may go on after a read

# later NAME INPUT MORE [MORE..]: INPUT, then each MORE a while later, then the end
later() {
    name=$1
    printf "$2" >"$work/first"
    shift 2
    {
        cat "$work/first"
        for piece in "$@"; do
            sleep 0.5
            printf "$piece"
        done
    } | timeout 10 "$program" >"$work/out" 2>"$work/err"
    verdict "$name" $?
}

later "the line in pieces" 'opti' 'mal ' '2'
later "a line without LF, and the end later" 'optimal 2' ''
echo 'optimal 10' | python3 tests/pebbling.py >"$work/right" || exit 2
later "a digit later" 'optimal 1' '0'
later "ten bytes, and LF later" 'optimal 10' '\n'
later "ten bytes, and the end later" 'optimal 10' ''
printf 'refused\n' >"$work/right"
later "ten bytes, and an eleventh later" 'optimal 10' '0'

# ---- a read that fails is not the end of the input

# unread NAME STATUS: the program ended with that status, wrote nothing, and said what failed
unread() {
    if [ "$2" -eq 0 ] && [ ! -s "$work/out" ] && head -n 1 "$work/err" | grep -q '^pebbles: standard input could not be read: '; then
        passed=$((passed + 1))
    else
        failed=$((failed + 1))
        echo "failed: $1"
    fi
}

timeout 10 "$program" <&- >"$work/out" 2>"$work/err"
unread "a closed standard input" $?
timeout 10 "$program" <"$work" >"$work/out" 2>"$work/err"
unread "a directory" $?
python3 tests/terminal.py broken 'optimal 2' "$program" >"$work/out" 2>"$work/err"
unread "a read that fails behind a line" $?

# ---- a listing that cannot be written

printf 'optimal 2\n' | "$program" >/dev/full 2>"$work/err"
if grep -q '^pebbles: the listing could not be written to standard output: ' "$work/err"; then
    passed=$((passed + 1))
else
    failed=$((failed + 1))
    echo "failed: a full device"
fi

echo "pebbles: $passed passed, $failed failed"
[ "$failed" -eq 0 ]
