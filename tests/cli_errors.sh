#!/bin/sh
# Gives the program words, files and ports that are wrong, and ends with 1 where its exit status, standard output or
# standard error is not as expected: a line that names the word or the file, and says what it should be. It takes seconds,
# and needs python3 for a terminal to type at.
# Give the program's path, or none for the one that `rt ci` built.
here=$(CDPATH= cd -- "$(dirname -- "$0")/.." && pwd) || exit 4
zvt=${1:-$here/crates/zvt/out/zvt}
[ -x "$zvt" ] || { echo "cli_errors: no program at $zvt: build it by 'rt run' in crates/zvt, or by 'rt ci'" >&2; exit 2; }
work=$(mktemp -d) || exit 4
trap 'rm -rf "$work"' EXIT
: > "$work/failed"
: > "$work/out"
: > "$work/err"
: > "$work/says"

# compares what a command left behind with what is expected
check() { # NAME STATUS EXPECTED_STATUS EXPECTED_OUTPUT WORDS
    if [ "$2" = "$3" ] && [ "$(cat "$work/out")" = "$4" ] && { [ -z "$5" ] || grep -qF -- "$5" "$work/err"; }; then
        echo "ok: $1"
    else
        echo "NOT AS EXPECTED: $1: status $2 instead of $3, and on standard output and standard error"
        cat "$work/out" "$work/err"
        echo "instead of"
        echo "$4"
        echo "$5"
        echo "$1" >> "$work/failed"
    fi
}

# a command that ends with this status, writes nothing, and says these words
refuses() { # NAME STATUS WORDS ARGUMENT..
    name=$1
    wanted=$2
    words=$3
    shift 3
    "$zvt" "$@" > "$work/out" 2> "$work/err" < "$here/examples/payment.trace"
    check "$name" "$?" "$wanted" "" "$words"
}

# a terminal that listens: its process and its port
listening() { # ARGUMENT..
    : > "$work/says"
    "$zvt" terminal --port 0 "$@" > /dev/null 2> "$work/says" &
    terminal=$!
    for attempt in $(seq 100); do
        grep -q listens "$work/says" && break
        sleep 0.1
    done
    port=$(sed -n 's/^zvt: a terminal listens at 127.0.0.1://p' "$work/says")
}

# Files that traces are read from.
for command in show join normalise audit receipts; do
    refuses "$command of a directory" 4 "zvt: '$work': cannot open the trace: " "$command" "$work"
    refuses "$command of no file" 4 "zvt: '$work/none.trace': cannot open the trace: " "$command" "$work/none.trace"
    refuses "$command of a file that can't be read" 4 "zvt: '/proc/self/mem': cannot read the rest of the trace" "$command" /proc/self/mem
done
echo '> 8' > "$work/half.trace"
refuses "a line that is none" 3 "zvt: '$work/half.trace': line 1 of the trace: " audit "$work/half.trace"
refuses "two files that are followed" 2 "zvt: '--follow' takes one FILE" show --follow one two
refuses "the second of two files that are not there" 4 "zvt: 'two': cannot open the trace: " show one two
refuses "a word that is no text" 2 "zvt: an argument is not valid UTF-8" show "$(printf '\377')"
"$zvt" show < "$work" > "$work/out" 2> "$work/err"
check "standard input that is a directory" "$?" 4 "" "zvt: cannot read the rest of the trace"
"$zvt" audit "$here/examples/payment.trace" > "$work/named" 2> "$work/err"
"$zvt" audit - < "$here/examples/payment.trace" > "$work/out" 2>> "$work/err"
check "a file, and standard input by its sign" "$?" 0 "$(cat "$work/named")" ""

# What is bad in a trace: standard output has no more than ever, and standard error leads back to the line.
notes() { # NAME STATUS OUTPUT ERRORS TRACE COMMAND
    printf "$5" | "$zvt" $6 > "$work/out" 2> "$work/err"
    check "$1" "$?" "$2" "$3" ""
    [ "$(cat "$work/err")" = "$4" ] || { echo "NOT AS EXPECTED: the notes of $1"; cat "$work/err"; echo "$1" >> "$work/failed"; }
}
bad='> 06 01 02 D0\n> 80 00 00\n< 80 00 00 04\n> 80\n!\n< 06\n'
shown="zvt: line 1 of the trace: > Authorisation refused at 3, byte D0: UnknownField
zvt: line 5 of the trace: < a message of 04 cut off after 1
zvt: 2 lines of > not read after that, up to line 4: 'show', 'audit' and 'receipts' read on with --open
zvt: line 6 of the trace: < a message of 06 cut off after 1
zvt: 1 message, 1 stream refused, 2 cut off"
notes "bad streams that are shown" 1 "> refused at 3: UnknownField
> stopped
< Ack
> stopped
< truncated after 1
! line lost
< truncated after 1" "$shown" "$bad" show
notes "bad streams that are joined" 1 "# > refused at 3: UnknownField
# > stopped
< 800000
# > stopped
# < truncated after 1
!
# < truncated after 1" "$shown" "$bad" join
notes "bad streams among receipts" 1 "" "$shown" "$bad" receipts
notes "bad streams that are audited" 1 "total 0" "zvt: line 1 of the trace: > Authorisation refused at 3, byte D0: UnknownField
zvt: 3 lines not read after that, up to line 4: 'show', 'audit' and 'receipts' read on with --open
zvt: line 6 of the trace: < a message of 06 cut off after 1
zvt: 0 messages, 1 stream refused, 1 cut off" "$bad" audit
notes "directions that are swapped" 0 "total 0" "zvt: only '<' sent orders: the directions of the trace may be swapped" '< 06 50 03 00 00 00\n> 80 00 00\n' audit
lacks="zvt: the books lack the money of such orders: look at them and at their answers in 'zvt show --open'"
for order in "22 pre-authorisation" "23 partial reversal of a pre-authorisation" "24 book total" "25 reversal of a pre-authorisation" "31 refund"; do
    low=${order%% *}
    unfollowed="zvt: line 1 of the trace: 06 $low (${order#* }) is not followed
$lacks"
    notes "the order 06 $low" 0 "total 0" "$unfollowed" "> 06 $low 03 00 00 00\n< 80 00 00\n" audit
    notes "the order 06 $low, checked" 1 "total 0" "$unfollowed" "> 06 $low 03 00 00 00\n< 80 00 00\n" "audit --check"
done
notes "payments without an amount" 0 "total 0" "zvt: line 1 of the trace: 06 01 (payment without one amount) is not followed
zvt: line 3 of the trace: 06 01 (payment without one amount) is not followed
$lacks" '> 06 01 00\n< 80 00 00\n> 06 01 00\n< 80 00 00\n' audit
refund='> 06 31 03 00 00 00\n< 80 00 00\n' amount='04 00 00 00 00 05 00' trace='0B 00 00 19'
note="zvt: line 1 of the trace: 06 31 (refund) is not followed"
notes "an approved refund" 0 "total 0" "$note; approved 500, trace 000019
$lacks" "$refund< 04 0F 0D 27 00 $amount $trace\n< 06 0F 00\n" audit
notes "a refund that is approved after it was declined" 0 "total 0" "$note; approved 500, trace 000019
$lacks" "$refund< 04 0F 02 27 6C\n< 04 0F 0D 27 00 $amount $trace\n" audit
notes "an approved refund without a trace number" 0 "total 0" "$note; approved 500
$lacks" "$refund< 04 0F 09 27 00 $amount\n" audit
notes "a declined refund" 0 "total 0" "$note
$lacks" "$refund< 04 0F 0D 27 6C $amount $trace\n< 06 0F 00\n" audit
notes "a status after the end of a refund" 0 "total 0" "$note
$lacks" "$refund< 06 0F 00\n< 04 0F 0D 27 00 $amount $trace\n" audit
for low in 20 21 26 32 70; do
    notes "the command 06 $low" 0 "total 0" "" "> 06 $low 03 00 00 00\n< 80 00 00\n" "audit --check"
done
notes "a terminal that sends the bytes of a refund" 0 "total 0" "" "< 06 31 03 00 00 00\n" "audit --check"
for command in show join receipts; do
    notes "a trace without a message under $command" 0 "" "zvt: the trace contains no message" '# nothing\n' "$command"
done
notes "a trace without a message under audit" 0 "total 0" "zvt: the trace contains no message" '' audit
form="expected '>' or '<' and hexadecimal digits, '!' alone, or a comment that begins with '#'"
digits="expected two hexadecimal digits for each byte after '>' or '<', with or without spaces"
notes "a line that can't be read behind a bad stream" 3 "> refused at 3: UnknownField" "zvt: line 1 of the trace: > Authorisation refused at 3, byte D0: UnknownField
zvt: 0 messages, 1 stream refused
zvt: line 2 of the trace: $digits
zvt: column 5 is ':': put spaces between bytes" '> 06 01 02 D0\n> 80:00:00\n' show
notes "a byte order mark" 3 "" "zvt: line 1 of the trace: $form
zvt: column 1 has a byte order mark: save the trace as plain text without one" '\357\273\277> 80 00 00\n' audit
notes "a capture" 3 "" "zvt: line 2 of the trace: $form
zvt: the input is a capture, not a trace: see 'From a capture to a trace' in docs/FORMAT.md" '\n\r\r\n\034' receipts

# Padded lengths are refused, but by a loose command, whose notes read as it does.
reads() { # NAME STATUS OUTPUT WORDS ARGUMENT..
    name=$1
    wanted=$2
    output=$3
    words=$4
    shift 4
    "$zvt" "$@" > "$work/out" 2> "$work/err"
    check "$name" "$?" "$wanted" "$output" "$words"
}
padded=$here/examples/messages/padded.trace
normal=$here/examples/messages/padded.normal
books="booked 1234 trace 000017 receipt 0005
total 1234"
reads "a padded trace, audited strictly" 1 "total 0" "zvt: line 6 of the trace: < Ack refused at 4, byte 00: NotShortest" audit "$padded"
# without the registration
sed '4,10d' "$padded" > "$work/payment.trace"
reads "a padded payment, audited strictly" 1 "unclear 1234 Malformed
total 0" "zvt: line 6 of the trace: < Ack refused at 4, byte 00: NotShortest" audit "$work/payment.trace"
reads "a padded trace in its strict spelling" 0 "$(cat "$normal")" "" normalise "$padded"
reads "a strict trace in its strict spelling" 0 "$(cat "$normal")" "" normalise "$normal"
reads "a padded trace, audited loosely" 0 "$books" "" audit --loose "$padded"
reads "its strict spelling, audited strictly" 0 "$books" "" audit "$normal"
reads "receipts of a padded trace" 0 "OK" "" receipts --loose "$padded"
"$zvt" show "$normal" > "$work/shown" 2> "$work/err"
reads "a padded trace, shown loosely" 0 "$(cat "$work/shown")" "" show --loose "$padded"
echo '< 06 0F 06 06 04 07 81 02 41' > "$work/bad.trace"
reads "a bad length, shown loosely" 1 "< refused at 7: DoesNotFit" "zvt: line 1 of the trace: < Completion refused at 7, byte 02: DoesNotFit" show --loose "$work/bad.trace"
reads "a bad length, joined loosely" 1 "# < refused at 7: DoesNotFit" "zvt: line 1 of the trace: < Completion refused at 7, byte 02: DoesNotFit" normalise "$work/bad.trace"
reads "a bad length, shown strictly" 1 "< refused at 6: NotShortest" "zvt: line 1 of the trace: < Completion refused at 6, byte 81: NotShortest" show "$work/bad.trace"
refuses "a loose join" 2 "--loose" join --loose

# A long line is read as it is told, and told only where all of it can be read.
acks=$(printf '800000%.0s' $(seq 3000))
spaced=$(printf '80 00 00 %.0s' $(seq 3000))
shown=$(printf '< Ack\n%.0s' $(seq 3000))
long() { # NAME STATUS OUTPUT WORDS LINE..
    name=$1
    wanted=$2
    output=$3
    words=$4
    shift 4
    printf '%s\n' "$@" > "$work/long.trace"
    reads "$name" "$wanted" "$output" "$words" show "$work/long.trace"
}
long "a long line" 0 "$shown" "" "< $acks"
long "a long line with spaces" 0 "$shown" "" "< $spaced"
long "a long line that ends within a byte" 3 "" "line 1 of the trace: $digits" "< ${acks}8"
long "a long line that ends with no digit" 3 "" "line 1 of the trace: $digits" "< ${acks}8G"
long "a long line with spaces that ends with no digit" 3 "" "line 1 of the trace: $digits" "< $spaced :"
long "a long line that is refused at its front, and one behind it" 1 "< refused at 3: UnknownField
< stopped" "zvt: 0 messages, 1 stream refused" "< 060F02D0$acks" "< $acks"
long "a long line that is refused at its end" 1 "$shown
< refused at 3: UnknownField" "zvt: line 1 of the trace: < Completion refused at 3, byte D0: UnknownField" "< ${acks}060F02D0"

# Words that are none.
refuses "a password" 2 "zvt: invalid password '12345': expected six decimal digits" till --port 1 --password 12345
refuses "a configuration byte" 2 "zvt: invalid configuration byte 'G1': expected two hexadecimal digits" till --port 1 --config G1
refuses "a currency" 2 "zvt: invalid currency '10000': expected four decimal digits" till --port 1 --currency 10000
refuses "a port that no terminal has" 2 "zvt: invalid port '0'" till --port 0
refuses "a port that is none" 2 "'65536'" till --port 65536
refuses "a step" 2 "zvt: 'pay:0': invalid step 2: expected 'register'" till --port 1 register pay:0
refuses "a till's step that declines" 2 "zvt: 'decline:1:6C': invalid step 2: expected 'register', 'pay:N', 'reverse:N', 'close' or, in 'zvt loop', 'decline:N:XX', where N is an amount in cents, as 'pay:1000' for 10.00, or the number of an entry; a reference, as in 'pay:1000:ref=A-1009', has 1 to 40 printable characters and no space" till --port 1 register decline:1:6C
refuses "a step of a loop" 2 "zvt: 'pay': invalid step 1" loop pay
refuses "no time to wait" 2 "zvt: invalid number of seconds '0': expected 1 to 65535" till --port 9 --timeout 0
refuses "too many connections" 2 "'65536'" terminal --port 0 --connections 65536
refuses "a code to decline with" 2 "zvt: invalid result code '00'" terminal --port 0 --decline 00
refuses "a terminal's number" 2 "'100000000'" terminal --port 0 --tid 100000000

# Traces that can't be written. One that stands is left as it was by a wrong word.
refuses "a trace that is a directory" 4 "zvt: '$work': cannot create the trace file: " loop --trace "$work"
refuses "a trace in no directory" 4 "zvt: '$work/none/till.trace': cannot create the trace file: " till --port 1 --trace "$work/none/till.trace"
echo '# mine' > "$work/mine.trace"
refuses "a wrong word beside a trace" 2 "invalid result code '00'" terminal --port 0 --decline 00 --trace "$work/mine.trace"
refuses "a wrong step beside a trace" 2 "'pay:0'" loop --trace "$work/mine.trace" pay:0
[ "$(cat "$work/mine.trace")" = "# mine" ] || echo "a trace that was to stay" >> "$work/failed"
"$zvt" loop --trace /dev/full register > "$work/out" 2> "$work/err"
check "a trace that is full" "$?" 4 "register -> unclear Line
total 0" "zvt: cannot write the trace file, so the run stopped: check its permissions and the free space"
listening
"$zvt" till --port "$port" --trace /dev/full register > "$work/out" 2> "$work/err"
check "a till's trace that is full" "$?" 4 "register -> unclear Line
total 0" "zvt: cannot write the trace file, so the run stopped: check its permissions and the free space"
wait "$terminal"
listening --trace /dev/full
"$zvt" till --port "$port" register > "$work/till" 2> /dev/null
wait "$terminal"
status=$?
cp "$work/till" "$work/out"
cp "$work/says" "$work/err"
check "a terminal's trace that is full" "$status" 4 "register -> unclear Line
total 0" "zvt: cannot write the trace file, so the run stopped: check its permissions and the free space"

# A trace goes behind what its file has, but for a book.
"$zvt" loop --no-times --trace "$work/mine.trace" register > "$work/out" 2> "$work/err"
check "a trace behind a comment" "$?" 0 "register -> registered
total 0" "zvt: '$work/mine.trace': the trace goes behind what this file has"
printf '# mine' > "$work/half.trace"
"$zvt" loop --no-times --trace "$work/half.trace" register > "$work/out" 2> "$work/err"
for file in mine half; do
    head -n 3 "$work/$file.trace" > "$work/out"
    check "the first lines of $file.trace" 0 0 "# mine
!
> 060006000000BE0978" ""
done
"$zvt" loop --no-times --trace "$work/new.trace" register > "$work/out" 2> "$work/err"
check "a new trace" "$?" 0 "register -> registered
total 0" ""
[ ! -s "$work/err" ] && [ "$(head -n 1 "$work/new.trace")" = "> 060006000000BE0978" ] || echo "a new trace says nothing" >> "$work/failed"

# A line that a full disk left unfinished is cut off: at once, and where the file is opened again.
(trap '' XFSZ; ulimit -f 1; exec "$zvt" loop --trace "$work/filled.trace" register pay:500 pay:600 pay:700 pay:800 pay:900) > "$work/out" 2> "$work/err"
check "a trace on a disk that fills" "$?" 4 "$(cat "$work/out")" "zvt: '$work/filled.trace': the last line was not finished, so its"
[ "$(tail -c 1 "$work/filled.trace" | od -An -tx1)" = " 0a" ] || echo "the end of a cut trace" >> "$work/failed"
"$zvt" join "$work/filled.trace" > "$work/out" 2> "$work/err"
check "a trace on a disk that filled is read" "$?" 0 "$(cat "$work/out")" ""
"$zvt" loop --trace "$work/torn.trace" register > /dev/null 2>&1
head -c -1 "$work/torn.trace" > "$work/whole.trace"
for torn in "> 0" "< 80000" "<" "#" "#@ 2026-11-2" "#@ 2026-11-28T09:14:03.250Z"; do
    { cat "$work/whole.trace"; printf '\n%s' "$torn"; } > "$work/torn.trace"
    "$zvt" loop --trace "$work/torn.trace" register > "$work/out" 2> "$work/err"
    check "a trace behind the unfinished '$torn'" "$?" 0 "register -> registered
total 0" "the last line was not finished, so its ${#torn} bytes were cut off"
    "$zvt" join "$work/torn.trace" > "$work/out" 2> "$work/err"
    check "a trace that had '$torn' is read" "$?" 0 "$(cat "$work/out")" ""
done
for rest in "# note" "#@ today" "#@ 2026-11-28T09:14:03.2500"; do
    { cat "$work/whole.trace"; printf '\n%s' "$rest"; } > "$work/torn.trace"
    "$zvt" loop --trace "$work/torn.trace" register > /dev/null 2> "$work/err"
    grep -q "cut off" "$work/err" && echo "NOT AS EXPECTED: '$rest' was cut off" && echo "a comment" >> "$work/failed"
    grep -qFx -e "$rest" "$work/torn.trace" || { echo "NOT AS EXPECTED: '$rest' is gone"; echo "a comment" >> "$work/failed"; }
done
# One write has a mark and its line, so a crash can leave a whole mark before a part of the line.
printf '#@ 2026-11-28T09:14:03.250Z\n> 06' > "$work/torn.trace"
"$zvt" loop --no-times --trace "$work/torn.trace" register > "$work/out" 2> "$work/err"
check "a trace behind a mark and an unfinished line" "$?" 0 "register -> registered
total 0" "the last line was not finished, so its 4 bytes were cut off"
head -n 3 "$work/torn.trace" > "$work/out"
check "what is left of them" 0 0 "#@ 2026-11-28T09:14:03.250Z
!
> 060006000000BE0978" ""
printf '> 06' > "$work/torn.trace"
"$zvt" loop --no-times --trace "$work/torn.trace" register > "$work/out" 2> "$work/err"
cmp -s "$work/torn.trace" "$work/new.trace" || { echo "NOT AS EXPECTED: a trace of nothing but an unfinished line"; echo "a torn trace" >> "$work/failed"; }

# A book and a trace in one file are refused before either is opened.
mkdir "$work/folder"
ln -s folder "$work/link"
: > "$work/one"
ln "$work/one" "$work/other"
for pair in "none none" "none ./none" "folder/none link/none" "one one" "one other"; do
    book=${pair% *}
    trace=${pair#* }
    for command in loop "till --port $port"; do
        refuses "$command with the book $book and the trace $trace" 2 "'--book' and '--trace' name the same file" \
            $command --book "$work/$book" --trace "$work/$trace" register
    done
done
[ ! -e "$work/none" ] && [ ! -e "$work/folder/none" ] && [ ! -s "$work/one" ] || echo "one file for two" >> "$work/failed"

# Books that can't be had. A file that is there is left as it is, and nothing is connected.
"$zvt" loop --book "$work/day.book" register pay:500 > "$work/out" 2> "$work/err"
check "a new book" "$?" 0 "register -> registered
pay:500 -> paid trace 000001 receipt 0001
total 500" "zvt: '$work/day.book': a new book"
cp "$work/day.book" "$work/copy.book"
"$zvt" loop --book "$work/noted.book" register pay:1:ref=A-1009 reverse:1 > "$work/out" 2> "$work/err"
moment=[0-9]{4}-[0-9]{2}-[0-9]{2}T[0-9]{2}:[0-9]{2}:[0-9]{2}Z
grep -Eq "^# pay 1 at $moment ref A-1009\$" "$work/noted.book" && grep -Eq "^# reverse 1 at $moment\$" "$work/noted.book" \
    || { echo "NOT AS EXPECTED: the notes of orders"; echo "notes" >> "$work/failed"; }
refuses "a reference with a space" 2 "zvt: 'pay:1:ref=a b': invalid step 1: " loop "pay:1:ref=a b"
refuses "no reference" 2 "a reference, as in 'pay:1000:ref=A-1009', has 1 to 40 printable characters and no space" loop pay:1:ref=
refuses "a reference of 41 characters" 2 "invalid step 1" loop pay:1:ref=12345678901234567890123456789012345678901
refuses "a reference with a control character" 2 "invalid step 1" loop "pay:1:ref=$(printf '\177')"
refuses "a reference in another alphabet" 2 "invalid step 1" loop "pay:1:ref=$(printf 'caf\303\251')"
refuses "a trace in a book" 3 "zvt: '$work/day.book': this is a till's book, which a trace would end" loop --trace "$work/day.book"
refuses "a book of another currency" 3 "zvt: '$work/day.book': the first line does not begin a book in the till's currency" till --port "$port" --currency 0840 --book "$work/day.book"
refuses "a wrong step beside a book" 2 "'pay:0'" loop --book "$work/day.book" pay:0
cmp -s "$work/day.book" "$work/copy.book" || { echo "NOT AS EXPECTED: a book that was to stay"; echo "a book" >> "$work/failed"; }
refuses "a trace as a book" 3 "zvt: '$work/new.trace': not a till's book: name the file of its '--book', or run 'zvt audit' on a trace" book "$work/new.trace"
refuses "an amount in euros" 2 "where N is an amount in cents, as 'pay:1000' for 10.00" till --port 1 pay:10.00
refuses "no steps" 4 "zvt: no steps are given, so the till registers and closes the day" till --port "$port"
for command in "loop --book" "till --port 1 --book" book; do
    refuses "$command of a folder" 4 "zvt: '$work': this is a directory" $command "$work"
    refuses "$command of no regular file" 4 "zvt: '/dev/null': not a regular file" $command /dev/null
    refuses "$command of a trace" 3 "zvt: '$work/new.trace': not a till's book" $command "$work/new.trace"
    refuses "$command in no folder" 4 "zvt: '$work/none/day.book': cannot open, read or write this file" $command "$work/none/day.book"
    printf '# zvt journal 1, currency 978\n!\n# pay 1\n\n' > "$work/odd.book"
    refuses "$command of records that are no till's" 3 "zvt: '$work/odd.book': " $command "$work/odd.book"
    printf '# zvt journal 1, currency 978\n!\n? 80\n\n' > "$work/odd.book"
    refuses "$command of a line that is none" 3 "zvt: '$work/odd.book': line 3 " $command "$work/odd.book"
done
for text in '\nmilk and bread' x '\n zvt journal 1, currency 12345' '# zvt journal 1, currency 978'; do
    printf "$text" > "$work/odd.book"
    cp "$work/odd.book" "$work/same.book"
    text=$(tr '\n' ' ' < "$work/odd.book")
    for command in "loop --book" book; do
        refuses "$command of the text '$text'" 3 "zvt: '$work/odd.book': not a till's book" $command "$work/odd.book"
    done
    cmp -s "$work/odd.book" "$work/same.book" || { echo "NOT AS EXPECTED: a file that was to stay"; echo "$text" >> "$work/failed"; }
done
refuses "book of no file" 4 "zvt: '$work/none.book': cannot open" book "$work/none.book"
[ ! -e "$work/none.book" ] || echo "a book that is only looked at" >> "$work/failed"
python3 -c '
import fcntl, subprocess, sys
with open(sys.argv[2]) as file:
    fcntl.flock(file, fcntl.LOCK_EX)
    sys.exit(subprocess.run([sys.argv[1], "loop", "--book", sys.argv[2]]).returncode)
' "$zvt" "$work/day.book" > "$work/out" 2> "$work/err"
check "a book that another till has open" "$?" 4 "" "zvt: '$work/day.book': another till is using this book"
refuses "a book before there is a connection" 4 "zvt: '$work/day.book': 1 booked, 0 unclear, total 500" till --port 1 --book "$work/day.book"
cmp -s "$work/day.book" "$work/copy.book" || { echo "NOT AS EXPECTED: a book without a connection"; echo "a book" >> "$work/failed"; }

# A book that is full before the first order is sent: the limit is the size of the file in which a till reserves space, and a
# remark fills the book up to 36 bytes before it. A lost line takes 14 of them, and no order fits into the others.
"$zvt" loop --book "$work/full.book" register > /dev/null 2>&1
python3 -c '
import sys
book = open(sys.argv[1], "rb").read()[:-1]
open(sys.argv[1], "wb").write(book + b"# " + b"x" * (65500 - len(book) - 4) + b"\n\n")
' "$work/full.book"
python3 -c '
import resource, signal, subprocess, sys
def limit():
    signal.signal(signal.SIGXFSZ, signal.SIG_IGN)
    resource.setrlimit(resource.RLIMIT_FSIZE, (65536, 65536))
ran = subprocess.run(sys.argv[1:], preexec_fn=limit, capture_output=True)
sys.stdout.buffer.write(ran.stdout)
sys.stderr.buffer.write(ran.stderr)
sys.exit(ran.returncode)
' "$zvt" loop --book "$work/full.book" --no-times --trace "$work/full.trace" register pay:5 > "$work/out" 2> "$work/err"
check "a book that is full" "$?" 4 "register -> unclear Line
total 0" "zvt: cannot write the book; the run was stopped and nothing more was sent"
[ "$(cat "$work/full.trace")" = "!" ] || { echo "NOT AS EXPECTED: an order that was sent without its record"; echo "an order" >> "$work/failed"; }
reads "what a full book has" 0 "total 0" "" book "$work/full.book"

# A book goes on from run to run, and a crash leaves a part of a record.
printf 'pay 7\n> 06' >> "$work/day.book"
"$zvt" loop --book "$work/day.book" register reverse:1 > "$work/out" 2> "$work/err"
check "a book after a crash" "$?" 0 "register -> registered
reverse:1 -> aborted B5 reversal not possible
total 500" "zvt: '$work/day.book': a crash left 10 bytes of an unfinished record"
[ "$(cat "$work/day.book.cut")" = "$(printf 'pay 7\n> 06')" ] || echo "what was cut" >> "$work/failed"
"$zvt" loop --book "$work/marked.book" register pay:1000 pay:500 reverse:1 close > "$work/out" 2> "$work/err"
"$zvt" book "$work/marked.book" > "$work/timed" 2> "$work/err"
status=$?
sed 's/ at 20[0-9][0-9]-[0-9][0-9]-[0-9][0-9]T[0-9][0-9]:[0-9][0-9]:[0-9][0-9]Z$/ at TIME/' "$work/timed" > "$work/out"
check "what a book has" "$status" 0 "booked 1000 trace 000001 receipt 0001 reversed at TIME
booked 500 trace 000002 receipt 0002 at TIME
total 500" ""
"$zvt" loop --book "$work/marked.book" pay:1 > "$work/out" 2> "$work/err"
check "a book without a registration" "$?" 0 "pay:1 -> not sent: NotRegistered
total 500" "zvt: '$work/marked.book': 2 booked, 0 unclear, total 500"

# Connections that can't be had.
refuses "a host that is none" 4 "zvt: no connection: the host name has no address" till --port 1 --host no.such.host.invalid
refuses "an address that is elsewhere" 4 "zvt: no connection: cannot listen on an address of another machine" terminal --port 0 --host 192.0.2.1
listening
refuses "a port that is in use" 4 "zvt: no connection: the port is in use" terminal --port "$port"
kill "$terminal"
wait "$terminal" 2> /dev/null
refuses "a port that nothing listens on" 4 "zvt: no connection: connection refused" till --port "$port"

# A reader that goes away: no message.
{ yes '> 80 00 00' | head -n 200000 | "$zvt" show 2> "$work/err"; echo "$?" > "$work/status"; } | head -n 1 > "$work/out"
check "a reader that goes away" "$(cat "$work/status")" 4 "> Ack" ""
[ ! -s "$work/err" ] || { echo "NOT AS EXPECTED: a message to a reader that went away"; cat "$work/err"; echo "message" >> "$work/failed"; }

# /dev/null, which the recipes for fleets name beside the traces of each call, is not told to be empty; another file is.
: > "$work/empty.trace"
"$zvt" audit /dev/null "$work/empty.trace" > "$work/out" 2> "$work/err"
check "an empty file beside /dev/null" "$?" 0 "/dev/null: total 0
$work/empty.trace: total 0
total 0 in 2 files" "$work/empty.trace: zvt: the trace contains no message"
[ "$(wc -l < "$work/err")" = 1 ] || { echo "NOT AS EXPECTED: a line for /dev/null"; cat "$work/err"; echo "null" >> "$work/failed"; }

# Whoever sits at a terminal is told that a trace is awaited.
python3 -c '
import os, pty, subprocess, sys
ours, theirs = pty.openpty()
program = subprocess.Popen([sys.argv[1], "show"], stdin=theirs, stdout=subprocess.PIPE, stderr=subprocess.PIPE)
os.write(ours, b"> 80 00 00\n\x04")
out, err = program.communicate(timeout=20)
sys.stdout.buffer.write(out)
sys.stderr.buffer.write(err)
sys.exit(program.returncode)
' "$zvt" > "$work/out" 2> "$work/err"
check "a trace that is typed" "$?" 0 "> Ack" "zvt: reading a trace from the keyboard: end it with Ctrl-D"

[ ! -s "$work/failed" ]
