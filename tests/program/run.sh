#!/bin/sh
# The program paviluko as a person uses it: sessions with expected answers, those of the documents at a terminal, its identity,
# command lines, odd input, heat splits, completion, damaged files, cards changed, torn and damaged, and the program killed at random
# moments. A line each.
# Run from the repository's top; the library and the program heatsplit are built before. PAVILUKO_LIB may name another folder with
# the library's archive; what needs heatsplit is then left out where that is not built.
# With the argument --write, the answers become the expected ones (look at them before you commit them).
set -eu

top=$(pwd)
program=$top/target-rust/release/paviluko
here=$top/tests/program

. tests/with_library.sh
sh tests/cipher/packages.sh gcc libc6-dev python3

fail() {
    echo "$1" >&2
    exit 1
}

# An empty folder to work in.
fresh() {
    cd "$place"
    rm -rf work
    mkdir work
    cd work
}

# Runs a command and holds its exit status and a part of what it prints against what is expected.
expect() {
    wanted=$1
    part=$2
    shift 2
    status=0
    "$@" >"$log" 2>&1 </dev/null || status=$?
    [ "$status" = "$wanted" ] || { cat "$log" >&2; fail "exit status $status and not $wanted: $*"; }
    [ -z "$part" ] || grep -qF -- "$part" "$log" || { cat "$log" >&2; fail "not said: $part: $*"; }
    cases=$((cases + 1))
}

# Turns over a bit of a file's byte.
flip() {
    byte=$(od -An -tu1 -j"$2" -N1 "$1" | tr -d ' ')
    printf "\\$(printf %03o $((byte ^ 1)))" | dd of="$1" bs=1 seek="$2" conv=notrunc 2>/dev/null
}

heatsplit=$top/target/bin/heatsplit
[ -x "$heatsplit" ] || [ "$PAVILUKO_LIB" != "$top/target/staticlib" ] ||
    fail "$heatsplit is missing: sh tools/heatsplit.sh builds it"

quietly sh tools/cargo.sh build --release --quiet -p paviluko_host

# ---- sessions ----

files_for_csv() {
    printf 'lane,stamp,meter,code,reading\n0,100,9,1,5\n0,100,3,2,-6\n# a note\n\n1, 100, 3, 3, 7\r\n0,100,4,4,8\n' >good.csv
    printf '0,100,9,1,5\n0,100,10,1\n' >bad-line.csv
    printf '0,100,9,1,5\n0,100,10,1,x\n' >bad-number.csv
    printf '2,100,9,1,5\n2,100,8,1,5\n2,100,9,1,6\n' >twice.csv
    printf '7,900,9,1,5\n9,900,9,1,5\n7,901,9,1,6\n' >lane-9.csv
    awk 'BEGIN { for (i = 0; i < 300; i++) printf "%d,%d,%d,%d,%d\n", i % 8, 1000 + i, i % 256, 1 + i % 4, i }' >long.csv
    awk 'BEGIN { for (i = 0; i < 128; i++) printf "%d,100,9,1,%d\n", i % 8, i }' >fill.csv
    awk 'BEGIN { for (i = 0; i < 9; i++) printf "%d,%d,5,1,%d\n", i % 8, 900 - i, i }' >backwards.csv
    : >empty.csv
    printf '0,1,\377\376,1,1\n' >binary.csv
}

# Bytes that are given in hexadecimal.
raw() {
    for byte in $1; do
        printf "\\$(printf %03o "0x$byte")"
    done
}

# A water meter's reply on the bus, 1234 l.
reply='68 1B 1B 68 08 05 72 78 56 34 12 24 40 01 07 55 00 00 00 0C 78 78 56 34 12 0C 13 34 12 00 00 51 16'
files_for_bus() {
    raw "$reply" >good.frame
    raw "$reply $reply" >two.frames
    { raw "$reply" && head -c 300000 /dev/zero; } >long.frame
    echo "$reply" >text.frame
}

sessions=0
for script in "$here"/*.in; do
    fresh
    files_for_csv
    files_for_bus
    quietly "$program" new box
    wanted=$(sed -n '1s/^# exit //p' "$script")
    status=0
    "$program" run box <"$script" >"$place/out" 2>&1 || status=$?
    expected=${script%.in}.out
    [ "${1:-}" != --write ] || cp "$place/out" "$expected"
    diff "$expected" "$place/out" >&2 || fail "$(basename "$script"): other answers than expected"
    awk 'length($0) > 100 { exit 1 }' "$place/out" || fail "$(basename "$script"): an answer wider than 100 columns"
    [ "$status" = "$wanted" ] || fail "$(basename "$script"): exit status $status and not $wanted"
    # The same from a file, whose name a refusal says too: word for word, since lines are then broken elsewhere.
    fresh
    files_for_csv
    files_for_bus
    quietly "$program" new box
    cp "$script" a-script
    "$program" run box a-script >"$place/again" 2>&1 || true
    tr -s ' \n' '\n\n' <"$place/out" >"$place/words"
    refused=$(grep -c '^line [0-9]*: ' "$place/out" || true)
    [ "$(grep -c '^a-script, line [0-9]*: ' "$place/again" || true)" = "$refused" ] ||
        fail "$(basename "$script"): not every refusal says its line"
    tr -s ' \n' '\n\n' <"$place/again" | grep -vx 'a-script,' | diff "$place/words" - >&2 ||
        fail "$(basename "$script"): other answers from a file"
    sessions=$((sessions + 1))
done
echo "program: $sessions sessions answered as expected"

cd "$top"
python3 "$here/sessions.py" "$program" "$heatsplit" README.md docs/FITTER.md
python3 -B "$here/terminal.py" "$program"
python3 "$here/heat.py" "$program" "$heatsplit"

# ---- identity ----

edition=$(sed -n 's/^#define PAVILUKO_EDITION //p' include/paviluko.h)
sources=$(sh tools/sources.sh)
unknown='not known: the archive was not built by make lib'
if [ "$PAVILUKO_LIB" != "$top/target/staticlib" ]; then
    sources=$(sed -n 's/^sources //p' "$PAVILUKO_LIB/libpaviluko.txt" 2>/dev/null || true)
fi
for word in --version -V version; do
    "$program" "$word" >"$log"
    printf 'paviluko, edition %s\nsources %s\n' "$edition" "${sources:-$unknown}" | diff - "$log" >&2 ||
        fail "paviluko $word: not the library of these sources (make lib), or not its identity"
done

# What build.rs hands on to the program, for an archive and the file beside it.
hands_on() {
    handed=$(PAVILUKO_LIB=$place/lib CARGO_MANIFEST_DIR=$top/host "$place/build" | sed -n 's/^cargo:rustc-env=PAVILUKO_SOURCES=//p')
    [ "$handed" = "$1" ] || fail "build.rs: the sources are '$handed' and not '$1', where $2"
}
quietly rustc --edition 2024 -o "$place/build" host/build.rs
mkdir "$place/lib"
hash=$(printf '%064d' 7)
echo 'an archive' >"$place/lib/libpaviluko.a"
hands_on '' 'there is no file'
fitting=$(sha256sum "$place/lib/libpaviluko.a")
printf 'edition 0\nsources %s\narchive %s\nkit k\n' "$hash" "${fitting%% *}" >"$place/lib/libpaviluko.txt"
hands_on "$hash" 'the file fits'
echo 'another archive' >"$place/lib/libpaviluko.a"
hands_on '' 'the file is of another archive'
rm "$place/lib/libpaviluko.a"
hands_on '' 'there is no archive'
echo 'an archive' >"$place/lib/libpaviluko.a"
sed -i 's/^sources .*/sources 7/' "$place/lib/libpaviluko.txt"
hands_on '' 'the hash is none'
echo "program: edition $edition, sources ${sources:-$unknown}; an archive that its file does not fit has none"

# ---- command lines and odd input ----

cases=0
fresh
for words in --help -h help 'nwe --help' '--help new x'; do
    expect 0 'paviluko table DIR [--csv]' "$program" $words
done
for command in new run table heat bus demo; do
    for words in "$command --help" "$command box -h" "help $command" "$command a b c d --help"; do
        expect 0 "paviluko $command" "$program" $words
        ! grep -q 'paviluko --version' "$log" || fail "paviluko $words: the help of everything"
    done
    expect 0 'edition' "$program" "$command" --version
    expect 0 'edition' "$program" "$command" box -V
done
expect 2 'a command is missing' "$program"
expect 2 'there is no command "nwe" (did you mean new?)' "$program" nwe box
expect 2 'there is no command "sell"' "$program" sell box
expect 2 'there is no command' "$program" "$(printf '\377')"
expect 2 'there is no command "\u{1b}[2J"' "$program" "$(printf '\033[2J')"
expect 2 'there is no command ""' "$program" ''
expect 2 'usage: paviluko new [--vault FILE] DIR' "$program" new
expect 2 '"b" is one word too many' "$program" new a b
expect 2 '"x" is one word too many' "$program" version x
expect 2 'the folder DIR is missing' "$program" run
expect 2 'the folder DIR is missing' "$program" table --csv
expect 2 '"c" is one word too many' "$program" run a b c
expect 2 'there is no option --tsv (did you mean --csv?)' "$program" table box --tsv
expect 2 'written ./-x' "$program" new -x
expect 2 'write ./-x' "$program" new -- -x
expect 2 'written ./--neu' "$program" demo --neu
expect 2 'write ./-' "$program" run box -
expect 2 'a word is missing behind --vault' "$program" new --vault
expect 2 'write ./-x' "$program" new box --vault -x
expect 2 'a name is empty' "$program" new ''
expect 2 'a word is missing behind --plain' "$program" table box --plain
expect 2 'write --csv or --plain, and not both' "$program" table box --csv --plain x
expect 2 'there is no option --plan (did you mean --plain?)' "$program" table box --plan x
expect 2 'write ./-x' "$program" table box --plain -x
expect 2 'a name is empty' "$program" table box --plain ''
expect 2 'the folder DIR is missing' "$program" table --plain x
expect 2 'the files START and END are missing' "$program" heat
expect 2 'usage: paviluko heat [--lines] START END' "$program" heat --lines
expect 2 'the file END is missing' "$program" heat a
expect 2 '"c" is one word too many' "$program" heat a b c
expect 2 'there is no option --liens (did you mean --lines?)' "$program" heat --liens a b
expect 2 '--lines' "$program" heat --lines=x a b
expect 2 'write ./-' "$program" heat a -
expect 2 'a name is empty' "$program" heat '' b
expect 2 'there is no command "head" (did you mean heat?)' "$program" head a b
expect 2 'a word is missing behind --heatsplit' "$program" demo --heatsplit
expect 2 'the frame is missing' "$program" bus
expect 2 'usage: paviluko bus HEX.. | --file FILE' "$program" bus ''
expect 2 'two hexadecimal digits for each byte, and not 681' "$program" bus 68 1B 681
expect 2 'in hexadecimal, as 68 1F or 681F, and not 0x68' "$program" bus 0x68
expect 2 'and not \u{1b}[2J' "$program" bus "$(printf '\033[2J')"
expect 2 '"68" is one word too many: the frame is in the file' "$program" bus --file good.frame 68
expect 2 'a word is missing behind --file' "$program" bus --file
expect 2 'write ./-' "$program" bus --file -
expect 2 'there is no option --fiel (did you mean --file?)' "$program" bus --fiel good.frame
expect 2 'there is no command "bsu" (did you mean bus?)' "$program" bsu 68
[ -z "$("$program" sell box 2>/dev/null)$("$program" new 2>/dev/null)" ] || fail 'a wrong command line on standard output'
[ -z "$(ls)" ] || fail "a wrong command line made $(ls)"
expect 1 'box: not found' "$program" run box
expect 1 'box: not found' "$program" table box
expect 1 'no: not found' "$program" new no/box
expect 0 'a new box' "$program" new box
[ "$(stat -c %a box/key box/vault)" = "$(printf '600\n600')" ] || fail 'others may read the key or the vault'
expect 1 'this folder is not empty' "$program" new box
expect 1 'script: not found' "$program" run box script
expect 1 'box/key: is not a folder' "$program" run box/key
expect 0 '' "$program" run box
mkdir made
expect 0 'a new box' "$program" new made
expect 1 'demo' "$program" demo no/demo

# A script from a shell's text, on the box.
says() {
    wanted=$1
    part=$2
    printf "$3" >script
    expect "$wanted" "$part" "$program" run box script
}
says 0 'in service' 'start'
says 0 'in service' '\r\n  start  \r\n'
says 1 'unknown command: \u{0}\u{1b}[2J' '\000\033[2J\n'
says 1 'unknown command' '\377\376\375\n'
says 0 '' '\n\n   \n#\n'
awk 'BEGIN { for (i = 0; i < 200000; i++) printf "take "; print ""; print "start" }' >script
expect 1 'in service' "$program" run box script
grep -q 'is no command' "$log" || fail 'a long line was not refused'
head -c 300000 /dev/zero >script
expect 1 'is no command' "$program" run box script
expect 1 'paviluko: .: is a folder' "$program" run box .
says 1 'script, line 3: refused: 4,' 'start\n# a note\ntake 0 5 1=9:1\ntake 0 5 1=1:1\n'
says 1 'script, line 2: unknown command: stats (did you mean status?)' 'start\nstats\n'
printf 'start\n\ntabel\n' | "$program" run box >"$log" || true
grep -q '^line 3: unknown command: tabel (did you mean table?)' "$log" || fail 'a pipe has no lines'
awk 'BEGIN { print "start"; for (i = 0; i < 20000; i++) print "status" }' >script
{ "$program" run box script 2>"$place/err" || true; } | head -n 1 >"$log"
grep -q 'in service' "$log" || fail 'nothing was said to a reader that goes away'
[ ! -s "$place/err" ] || fail "a reader went away, and: $(cat "$place/err")"
mkfifo commands
"$program" run box <commands >"$place/first" 2>&1 &
first=$!
exec 3>commands
echo start >&3
until grep -q 'in service' "$place/first"; do sleep 0.05; done
expect 1 'another session runs this box' "$program" run box
exec 3>&-
wait "$first"
expect 0 '' "$program" run box

# The table without a session: data on standard output, all else on standard error.
printf 'start\ntake 7 1772409600 5=1:1300 6=4:-2\n' | "$program" run box >"$log"
cp -r box before
"$program" table box --csv >"$place/out" 2>"$place/err"
printf '%s\n' meter,code,reading,stamp,lane,number,medium,unit,utc 1,1,1,5,0,1,'cold water',l,1970-01-01T00:00:05Z \
    5,1,1300,1772409600,7,1,'cold water',l,2026-03-02T00:00:00Z 6,4,-2,1772409600,7,1,cooling,kWh,2026-03-02T00:00:00Z |
    diff - "$place/out" >&2 || fail 'paviluko table --csv: not the table'
printf '%s\n' 'Box box, card box/card-1: 1 record, 1 checkpoint.' \
    'The card is taken: 3 meters in the table. Vault and card stay as they are.' |
    diff - "$place/err" >&2 || fail 'paviluko table: not these notices'
"$program" table box >"$place/out" 2>/dev/null
diff -r box before >&2 || fail 'a look at the table changed the box'
rm -r before
printf 'start\ntable\n' | "$program" run box | tail -n +2 | diff - "$place/out" >&2 || fail 'paviluko table: not as table'
mv box/card-1 lifted
expect 1 'paviluko: failed: box/card-1: not found' "$program" table box
mkdir box/card-1
expect 1 'refused: 9 (byte 0)' "$program" table box
[ -z "$("$program" table box 2>/dev/null)" ] || fail 'a refused start, and something on standard output'
rm -r box/card-1
mv lifted box/card-1
expect 0 '' "$program" table box

# The table in plain without a session: in a file, and the box stays as it is.
printf 'start\ntable --plain session.table\n' | "$program" run box >"$log"
cp -r box before
"$program" table box --plain here.table >"$place/out" 2>"$place/err"
echo 'plain table written to here.table, 6144 bytes: 3 meters with a reading, 0 heat meters' |
    diff - "$place/out" >&2 || fail 'paviluko table --plain: not what was written'
printf '%s\n' 'Box box, card box/card-1: 0 records, 1 checkpoint.' \
    'The card is taken: 3 meters in the table. Vault and card stay as they are.' |
    diff - "$place/err" >&2 || fail 'paviluko table --plain: not these notices'
cmp session.table here.table || fail 'paviluko table --plain: not as table --plain in a session'
# Meter 5 has its entry at byte 120: stamp, number, reading, code, lane, that it is there.
[ "$(od -An -v -tu1 -j120 -N24 here.table | tr -s ' \n' ' ')" = ' 0 211 164 105 0 0 0 0 1 0 0 0 0 0 0 0 20 5 0 0 1 7 1 0 ' ] ||
    fail "the entry of meter 5 in plain: $(od -An -v -tu1 -j120 -N24 here.table)"
[ "$(tr -d '\000' <here.table | wc -c)" = "$(head -c 168 here.table | tr -d '\000' | wc -c)" ] || fail 'meters without a reading in plain'
expect 1 'paviluko: failed: here.table: there is something of that name already' "$program" table box --plain here.table
expect 1 'paviluko: failed: box: is a folder' "$program" table box --plain box
expect 1 'paviluko: failed: nowhere: not found' "$program" table box --plain nowhere/x
expect 1 'box/key: the box keeps its own files there' "$program" table box --plain box/key
expect 1 'the box keeps its own files there' "$program" table box --plain "$PWD/box/card-1/x"
expect 1 'nowhere: not found' "$program" table nowhere --plain x
diff -r box before >&2 || fail 'the table in plain changed the box'
cmp session.table here.table || fail 'a plain table was written over'
mv box/card-1 lifted
mkdir box/card-1
expect 1 'refused: 9 (byte 0)' "$program" table box --plain x
rm -r box/card-1
mv lifted box/card-1
[ ! -e x ] || fail 'a refused card, and its table in plain'
[ -z "$(find . -name '*.new')" ] || fail "left behind: $(find . -name '*.new')"
rm -r before

# The heat split: on standard output, a refusal with its reason on standard error.
printf '%s\n' start 'take 0 1735689600 4=3:10 9=3:10 12=3:5 200=3:10 201=1:7' 'table --plain start.table' \
    'take 0 1767225600 4=3:11 9=3:11 12=3:3 200=3:11 255=3:1' 'table --plain end.table' \
    'take 0 1767225601 9=1:4' 'table --plain changed.table' >script
quietly "$program" new house
quietly "$program" run house script
head -c 6144 /dev/zero >empty.table
expect 0 '  200     1  kWh    33.3333 %' "$program" heat start.table end.table
"$program" heat start.table end.table >"$place/out" 2>"$place/err"
diff - "$place/out" >&2 <<'END' || fail 'paviluko heat: not the split'
meter  used  unit       share
    4     1  kWh    33.3334 %  ##################################################
    9     1  kWh    33.3333 %  ##################################################
   12    -2  kWh     0.0000 %  negative use
  200     1  kWh    33.3333 %  ##################################################
total     3  kWh   100.0000 %
4 heat meters in both tables
negative use: meter 12 was changed during the year, or went back. Its share is 0, and it is left out
    of the total: settle it by hand
not in both: heat meter 255 is in end.table alone, and is left out: settle it by hand
END
[ ! -s "$place/err" ] || fail "a split, and: $(cat "$place/err")"
for words in 'heat --lines start.table end.table' 'heat start.table end.table --lines'; do
    "$program" $words >"$place/out"
    printf '%s\n' meter,used,share 4,1,333334 9,1,333333 12,-2,0 200,1,333333 | diff - "$place/out" >&2 ||
        fail "paviluko $words: not the lines of the request"
done
expect 0 '200,1,333333' "$program" heat --lines /dev/fd/3 end.table 3<start.table
# Refused, with and without --lines: nothing on standard output.
refuses() {
    number=$1
    why=$2
    shift 2
    for option in '' --lines; do
        expect 1 "paviluko: refused: $number," "$program" heat $option "$@"
        tr -s ' \n' '  ' <"$log" | grep -qF -- "why: $why" || { cat "$log" >&2; fail "not said: $why: $*"; }
        [ -z "$("$program" heat $option "$@" 2>/dev/null)" ] || fail "refused, and something on standard output: $*"
    done
}
refuses 18 'meter 9 is heat in start.table and cold water in changed.table' start.table changed.table
refuses 18 'meter 9 is cold water in changed.table and heat in end.table' changed.table end.table
refuses 19 '4 heat meters are in both tables, which have the same bytes' start.table start.table
refuses 19 'no heat meter is in both tables' start.table empty.table
refuses 19 'no heat meter is in both tables' here.table here.table
{ head -c 288 end.table && head -c 24 /dev/zero && tail -c +313 end.table; } >without.table
refuses 19 '3 heat meters are in both tables, and all show less at the end than at the start: the two files may be exchanged' \
    without.table start.table
{ cat end.table && printf x; } >longer.table
head -c 6143 end.table >shorter.table
refuses 4 'longer.table: it has 6145 bytes, and a plain table has 6144' start.table longer.table
refuses 4 'longer.table: it has 6145 bytes' longer.table shorter.table
refuses 4 'shorter.table: it has 6143 bytes' start.table shorter.table
refuses 4 '/dev/null: it is empty' /dev/null end.table
refuses 4 '/dev/zero: it has more than 6184 bytes' start.table /dev/zero
refuses 4 'house/key: it has 33 bytes' start.table house/key
cat house/card-1/checkpoints/* | head -c 6184 >sealed
refuses 4 'sealed: it has 6184 bytes, as a checkpoint has, which is sealed' start.table sealed
tail -c +21 sealed | head -c 6144 >ciphertext
refuses 4 'ciphertext: meter 0' start.table ciphertext
cp end.table coded.table
printf '\011' | dd of=coded.table bs=1 seek=116 conv=notrunc 2>/dev/null
refuses 4 'coded.table: meter 4 has code 9, and codes are 1 to 4' start.table coded.table
# Two tables in one file are no table; a flaw comes before a changed meter.
cat start.table end.table >both
refuses 4 'both: it has more than 6184 bytes' both end.table
refuses 4 'coded.table: meter 4 has code 9' changed.table coded.table
odd=$(printf 'a\033[2J')
cp shorter.table "$odd"
refuses 4 'a\u{1b}[2J: it has 6143 bytes' start.table "$odd"
expect 1 'paviluko: nowhere: not found' "$program" heat nowhere end.table
expect 1 'paviluko: nowhere: not found' "$program" heat start.table nowhere
expect 1 'paviluko: house: is a folder' "$program" heat start.table house
{ "$program" heat start.table end.table 2>"$place/err" || true; } | true
[ ! -s "$place/err" ] || fail "a reader went away, and: $(cat "$place/err")"

# A frame off the bus without a box: what it says on standard output, a refusal on standard error.
files_for_bus
taken='taken      code 1, cold water: 1234 l'
expect 0 "$taken" "$program" bus $reply
expect 0 "$taken" "$program" bus "$reply"
expect 0 "$taken" "$program" bus "$(echo "$reply" | tr -d ' ' | tr A-F a-f)"
expect 0 "$taken" "$program" bus --file good.frame
expect 1 'paviluko: nowhere: not found' "$program" bus --file nowhere
expect 1 'paviluko: box: is a folder' "$program" bus --file box
expect 1 'paviluko: refused: 16,' "$program" bus E5
expect 1 'why: there are no bytes' "$program" bus --file /dev/stdin
expect 1 'has 33 bytes, and here are 66' "$program" bus --file two.frames
expect 1 'here are more than 261' "$program" bus --file long.frame
expect 1 'why: byte 0 is 00 and not 68' "$program" bus --file /dev/zero
expect 1 'hexadecimal digits in the place of bytes' "$program" bus --file text.frame
"$program" bus $reply >"$place/out" 2>"$place/err"
diff - "$place/out" >&2 <<'END' || fail 'paviluko bus: not what the frame says'
meter      identification 12345678, manufacturer PAD, version 1
medium     07, water
status     00; access number 85, signature 0000
frame      33 bytes, C 08, address 5
byte  DIF  VIF  data
  19  0C   78   78 56 34 12  fabrication number 12345678 (8 digits)
  25  0C   13   34 12 00 00  volume 1234 l (8 digits): taken
taken      code 1, cold water: 1234 l
END
[ ! -s "$place/err" ] || fail "a frame that is taken, and: $(cat "$place/err")"
# The example in the description of the bus: its volume is an integer.
example='68 1F 1F 68 08 02 72 78 56 34 12 24 40 01 07 55 00 00 00 03 13 15 31 00 DA 02 3B 13 01 8B 60 04 37 18 02 18 16'
! "$program" bus $example >"$place/out" 2>"$place/err" || fail 'a frame without a usable record is taken'
diff - "$place/out" >&2 <<'END' || fail 'paviluko bus: not what the example says'
meter      identification 12345678, manufacturer PAD, version 1
medium     07, water
status     00; access number 85, signature 0000
frame      37 bytes, C 08, address 2
byte  DIF    VIF  data
  19  03     13   15 31 00  volume 12565 l (24-bit integer)
  24  DA 02  3B   13 01     volume flow 113 l/h (4 digits, maximum, storage 5)
  29  8B 60  04   37 18 02  energy 218.37 kWh (6 digits, tariff 2, subunit 1)
END
grep -q '^paviluko: refused: 17, ' "$place/err" || fail 'not refused with 17 on standard error'
[ -z "$("$program" bus E5 2>/dev/null)" ] || fail 'a broken frame, and something on standard output'

# Vaults that somebody wrote: 8 and 2, each at its place, and files that are none.
vault_says() {
    printf "$3" >numbers
    rm -rf tried
    expect 0 'a new box' "$program" new --vault numbers tried
    printf 'start\ntake 0 1 1=1:1\ncheckpoint\ncut\nstart\n' >script
    expect "$1" "$2" "$program" run tried script
}
spent=281474976710655
vault_says 0 'in service' ''
vault_says 1 'script, line 1: refused: 8,' 's 281474976710654\n'
vault_says 1 'script, line 1: refused: 8,' 'n 281474976710654\n'
vault_says 1 'script, line 1: refused: 8,' "e $spent\n"
vault_says 1 'script, line 2: refused: 8,' "w $spent 0 0 0 0 0 0 0\nv $spent 0 0 0 0 0 0 0\nr $spent 0 0 0 0 0 0 0\n"
vault_says 1 'script, line 1: refused: 2,' '# V above W\nw 1 0 0 0 0 0 0 0\nv 2 0 0 0 0 0 0 0\n'
vault_says 1 'script, line 1: refused: 2,' 'n 281474976710656\n'
cp box/vault numbers
rm -rf tried
expect 0 'a new box' "$program" new tried --vault=numbers
cmp box/vault tried/vault || fail 'not the vault that was given'
rm -rf tried
no_vault() {
    printf "$2" >numbers
    expect 1 "$1" "$program" new --vault numbers tried
    [ ! -e tried ] || fail "a box of a bad vault: $1"
}
no_vault 'numbers, line 2: 8 numbers are wanted behind w, and here are 1' '\nw 1\n'
no_vault 'numbers, line 1: x is no number of the vault' 'e x\n'
no_vault 'numbers, line 2: s is in line 1 already' 's 1\ns 1\n'
no_vault 'numbers, line 2: this is not the checksum' 's 1\nsum 0\n'
no_vault 'numbers: is not a text' '\377\n'
expect 1 'nowhere: not found' "$program" new --vault nowhere tried
echo "program: $cases command lines and odd scripts"

# ---- completion ----

# Completes the last word of a command line. What it can be, in order and between bars.
cases=0
completes() {
    wanted=$1
    shift
    found=$(bash -c '. "$1"; shift; COMP_WORDS=(paviluko "$@"); COMP_CWORD=$#; _paviluko; printf "%s\n" "${COMPREPLY[@]}"' \
        bash "$top/tools/paviluko.bash" "$@" | LC_ALL=C sort | paste -sd '|')
    [ "$found" = "$wanted" ] || fail "completion of '$*': $found and not $wanted"
    cases=$((cases + 1))
}
fresh
mkdir box 'a folder'
: >script
completes '--help|--version|bus|demo|heat|help|new|run|table|version' ''
completes table ta
completes 'heat|help' he
completes '--help|--version' --
completes '--help|--vault|--version' new --
completes '--csv|--help|--plain|--version' table box -
completes --csv table --c
completes --plain table box --p
completes 'a folder|box|script' table box --plain ''
completes 'a folder|box' table --plain script ''
completes '' table --plain script box ''
completes 'a folder|box|script' heat ''
completes script heat --lines s
completes 'a folder|box|script' heat script ''
completes '' heat script script ''
completes '--help|--lines|--version' heat script -
completes --lines heat a b --l
completes '--heatsplit|--help|--version' demo -
completes 'a folder|box|script' demo --heatsplit ''
completes 'a folder|box' demo --heatsplit script ''
completes 'a folder|box' demo ''
completes --help run box --h
completes 'a folder|box' run ''
completes 'a folder|box' table --csv ''
completes box new --vault script b
completes 'a folder|box|script' new --vault ''
completes 'a folder|box|script' run box ''
completes script run box s
completes '' run box script ''
completes '' table box ''
completes 'bus|demo|heat|new|run|table' help ''
completes '--file|--help|--version' bus -
completes 'a folder|box|script' bus --file ''
completes script bus --file s
completes '' bus ''
completes '' bus 68 ''
completes '' version ''
echo "program: $cases words completed"

# ---- damaged files ----

# A box with two readings of lane 0, one of lane 1, and beside it another box of the same kind.
cases=0
fresh
for name in box other; do
    quietly "$program" new "$name"
    printf 'start\ntake 0 100 1=1:10\ntake 0 200 1=1:20\ntake 1 300 2=3:30\n' >script
    quietly "$program" run "$name" script
done
printf 'start\ntable --csv\n' >script
printf '%s\n' meter,code,reading,stamp,lane,number,medium,unit,utc '1,1,20,200,0,2,cold water,l,1970-01-01T00:03:20Z' \
    2,3,30,300,1,1,heat,kWh,1970-01-01T00:05:00Z >table
cp -r box good
records=box/card-1/records.1
files=box/card-1/checkpoints
record() { printf '%s/%020d' "$records" "$1"; }
checkpoint() { printf '%s/%020d-%020d' "$files" "$1" "$1"; }

# The vault's text, where there is one.
vault() { [ ! -f box/vault ] || od -c box/vault; }

# Runs the damaged box; then puts the vault, the key and the card back as they were: it is in service with its table.
damaged() {
    before=$(vault)
    expect "$1" "$2" "$program" run box script
    if [ "$1" = 1 ]; then
        [ "$before" = "$(vault)" ] || fail "a refused start changed the vault: $2"
        rm -rf box
        cp -r good box
        quietly "$program" run box script
    fi
    sed -n '/^meter,/,$p' "$log" | diff table - >&2 || fail "another table, after: $2"
    rm -rf box
    cp -r good box
}

damaged 0 'in service after 15 stores; 3 records'
head -c 20 good/vault >box/vault;           damaged 1 'box/vault: damaged'
flip box/vault 2;                           damaged 1 'box/vault: damaged'
: >box/vault;                               damaged 1 'box/vault: damaged'
head -c 9000 /dev/zero >box/vault;          damaged 1 'box/vault: damaged'
rm box/vault;                               damaged 1 'box/vault: not found'
rm box/vault; mkdir box/vault;              damaged 1 'box/vault: is not a file'
rm box/vault; mkfifo box/vault;             damaged 1 'box/vault: is not a file'
rm box/key;                                 damaged 1 'box/key: not found'
head -c 31 good/key >box/key;               damaged 1 'box/key: damaged'
printf '%033d\n' 0 >box/key;                damaged 1 'box/key: damaged'
tr 0-9a-f g-v <good/key >box/key;           damaged 1 'box/key: damaged'
cp other/key box/key;                       damaged 1 'refused: 9 (byte 0)'
rm box/card;                                damaged 1 'box/card: not found'
: >box/card;                                damaged 1 'box/card: damaged'
printf '\377\n' >box/card;                  damaged 1 'box/card: damaged'
echo nowhere >box/card;                     damaged 1 'box/nowhere: not found'
echo key >box/card;                         damaged 1 'box/key: is not a folder'
rm -r box/card-1;                           damaged 1 'box/card-1: not found'

rm box/lock; mkfifo box/lock;               damaged 1 'box/lock: is not a file'

flip "$(record 0)" 0;                       damaged 1 'refused: 9 (byte 0)'
flip "$(record 1)" 30;                      damaged 1 'refused: 9 (byte 56)'
flip "$(record 2)" 55;                      damaged 1 'refused: 9 (byte 112)'
head -c 55 "good/${records#box/}/00000000000000000001" >"$(record 1)"
damaged 1 'refused: 9 (byte 56)'
# The last record, which is visible, torn; then the beginning of one more; then what is no beginning of a record.
for torn in '1 byte' '19 bytes' '20 of 56 bytes' '21 of 56 bytes' '55 of 56 bytes'; do
    head -c "${torn%% *}" "good/${records#box/}/00000000000000000002" >"$(record 2)"
    damaged 1 'refused: 13 (lane 1)'
    head -c "${torn%% *}" "good/${records#box/}/00000000000000000000" >"$(record 3)"
    damaged 0 "passed over: $torn of a record at position 3"
done
: >"$(record 3)";                           damaged 0 'passed over: 0 bytes of a record at position 3'
head -c 19 /dev/zero >"$(record 3)";        damaged 0 'passed over: 19 bytes of a record at position 3'
head -c 20 /dev/zero >"$(record 3)";        damaged 1 'refused: 9 (byte 168)'
head -c 19 /dev/zero >>"$(record 2)";       damaged 0 'in service after 15 stores; 3 records'
head -c 20 /dev/zero >>"$(record 2)";       damaged 1 'refused: 9 (byte 168)'
: >"$(record 2)";                           damaged 1 'refused: 13 (lane 1)'
rm "$(record 2)";                           damaged 1 'refused: 13 (lane 1)'
rm "$(record 1)";                           damaged 1 'refused: 13 (lane 0)'
rm "$(record 0)";                           damaged 1 'refused: 11 (byte 0)'
cp "$(record 0)" "$(record 5)";             damaged 1 'refused: 11 (byte 168)'
mv "$(record 0)" "$(record 5)";             damaged 1 'refused: 11 (byte 0)'
mv "$(record 2)" "$(record 5)";             damaged 0 'in service'
rm "$(record 1)"; mkdir "$(record 1)";      damaged 1 'is not a file'
cp "other/${records#box/}/00000000000000000000" "$(record 0)"
damaged 1 'refused: 9 (byte 0)'
head -c 262145 /dev/zero >"$(record 9)";    damaged 1 'refused: 3 (length 262144)'
head -c 9000000 /dev/zero >"$(record 9)";   damaged 1 'refused: 3 (length 262144)'
echo junk >"$records/junk"; echo junk >"$records/.00000000000000000003.new"
damaged 0 'in service after 15 stores; 3 records'
rm -r "$records";                           damaged 1 'refused: 13 (lane 0)'
rm -r "$records"; : >"$records";            damaged 1 'refused: 13 (lane 0)'
rm box/card-1/log;                          damaged 1 'refused: 13 (lane 0)'
echo 'generation one' >box/card-1/log;      damaged 1 'refused: 13 (lane 0)'
echo 'generation 7' >box/card-1/log;        damaged 1 'refused: 13 (lane 0)'
mkdir box/card-1/records.9; cp "$(record 0)" box/card-1/records.9
damaged 0 'in service after 15 stores; 3 records'

flip "$(checkpoint 2)" 0;                   damaged 1 'refused: 9 (byte 0)'
flip "$(checkpoint 2)" 4;                   damaged 1 'refused: 9 (byte 0)'
flip "$(checkpoint 2)" 3000;                damaged 1 'refused: 9 (byte 0)'
rm "$(checkpoint 2)";                       damaged 1 'refused: 9 (byte 0)'
rm -r "$files";                             damaged 1 'refused: 9 (byte 0)'
rm -r "$files"; : >"$files";                damaged 1 'refused: 9 (byte 0)'
: >"$(checkpoint 2)";                       damaged 1 'refused: 9 (byte 0)'
head -c 6183 "good/${files#box/}/"* >"$(checkpoint 2)"
damaged 1 'refused: 9 (byte 0)'
# Torn ones of the version that the vault expects, beside the whole one; the seal number is a later one.
for len in 0 13 20 6183; do
    head -c "$len" "$(checkpoint 2)" >"$files/torn"
    [ "$len" -lt 13 ] || flip "$files/torn" 12
    damaged 0 'in service after 15 stores; 3 records'
done
echo more >>"$(checkpoint 2)";              damaged 1 'refused: 9 (byte 0)'
cp "other/${files#box/}/"* "$files";        damaged 1 'refused: 9 (byte 0)'
mv "$(checkpoint 2)" "$files/of-any-name";  damaged 0 'in service'
rm -r box/card-1; cp -r other/card-1 box;   damaged 1 'refused: 9 (byte 0)'

# A card that was lifted out, and put back in the same session.
mv box/card-1 lifted
printf 'status\nstart\ntake 0 1 1=1:1\ncopy-card x\ntruncate\nswap-card lifted\nstart\ntable --csv\n' >lifted.in
expect 1 'card       box/card-1: not found' "$program" run box lifted.in
tail -n 3 "$log" | diff table - >&2 || fail 'another table, after a card was lifted out'
rm -rf box lifted
cp -r good box

# Vaults whose numbers are whole and cannot be right, or are spent.
numbers() {
    printf 'w %s 0 0 0 0 0 0 0\nv %s 0 0 0 0 0 0 0\nr 0 0 0 0 0 0 0 0\ne 0\ns %s\nn 0\nsum %s\n' "$@" >box/vault
}
numbers 1 2 0 354f12af9ee43a29;                damaged 1 'refused: 2,'
numbers 0 0 281474976710656 2e81185524e01593;  damaged 1 'refused: 2,'
numbers 0 0 281474976710654 6313e643b0856001;  damaged 1 'refused: 8,'
echo "program: $cases boxes with damaged files, each refused or taken as it should be, and well again with its own"

# ---- kills, cards, demonstration ----

cd "$top"
quietly sh tools/cargo.sh test --release --quiet -p paviluko_host --lib --bins -- --nocapture
echo "program: off the bus, as the library says: $(grep -o '[0-9]* frames: .*' "$log")"
echo "program: a year's heat, as the library says: $(grep -o '[0-9]* pairs of tables: .*' "$log")"
quietly sh tools/cargo.sh test --release --quiet -p paviluko_host --test cards
echo 'program: vault file, card folder and the change of a card, cut at every store'
quietly sh tools/cargo.sh test --release --quiet -p paviluko_host --test torn -- --nocapture
echo "program: $(grep -o '[0-9]* beginnings of a record passed over.*' "$log"), $(grep -o '[0-9]* of a visible one missed.*' "$log")"
quietly sh tools/cargo.sh test --release --quiet -p paviluko_host --test odd -- --nocapture
echo "program: random commands and files, no panic; $(grep -o '[0-9]* damaged cards.*table' "$log")"
quietly sh tools/cargo.sh test --release --quiet -p paviluko_host --test killed -- --nocapture
echo "program: $(grep -o '[0-9]* kills.*' "$log")"
expect 1 'THE DEMONSTRATION FAILED: /bin/false: exit status: 1' "$program" demo --heatsplit /bin/false
expect 1 'THE DEMONSTRATION FAILED: /bin/true prints other lines than the library' "$program" demo --heatsplit /bin/true
if [ -x "$heatsplit" ]; then
    quietly "$program" demo --heatsplit "$heatsplit"
    grep -q 'heatsplit: 65 lines' "$log" || fail 'the demonstration left heatsplit out'
else
    quietly "$program" demo
fi
echo "program: demonstration: $(grep 'power cuts' "$log")"
