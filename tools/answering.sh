# How ./run answers standard input with a program that is built, and says what was wrong with a text that is refused.

# Runs the program. What it prints goes to standard output byte for byte.
answer() {
    [ -e /proc/self/fd/1 ] || die 2 "the answer cannot be written: standard output is closed"
    [ -e /proc/self/fd/0 ] || die 2 "standard input cannot be read: it is closed"
    [ ! -d /proc/self/fd/0 ] || die 2 "standard input cannot be read: it is a folder"
    [ ! -t 0 ] || say "$name reads standard input; Ctrl-D ends it"
    case $name in
    union_records | exchange_records) answer_text ;;
    *) print /dev/null ;;
    esac
}

# Answers one text, which is kept to see what was wrong with it; ends with 1 where it is refused. A program reads
# 65,537 bytes, one more than a text can have.
answer_text() {
    said=$(head -c 65537 2>&1 > "$room/text") || die 2 "standard input cannot be read: $said"
    print "$room/answer" < "$room/text"
    number=$(sed -n 's/^refused \([0-9]*\)$/\1/p' "$room/answer")
    [ "$(wc -l < "$room/answer")" -eq 1 ] && [ -n "$number" ] || return 0
    why=$(od -An -v -tu1 "$room/text" |
        LC_ALL=C awk -v program="$name" -v number="$number" -f tools/reading.awk -f tools/sound.awk)
    # a line of exchange_records can be an answer too: that of one exchange, or of one record
    [ -n "$why" ] || [ "$name" != exchange_records ] || return 0
    say "refused $number$(meaning "$number")"
    [ -z "$why" ] || say "$why"
    refused=yes
    exit 1
}

# Runs the program; a copy of what it prints goes to a file.
print() { # FILE
    : > "$room/ended"
    { "$program" || echo "$?" > "$room/ended"; } | tee "$1" 2> /dev/null ||
        die 2 "the answer could not be written: standard output is full or closed"
    [ ! -s "$room/ended" ] || die 2 "$name ended with status $(cat "$room/ended")"
}

# What a refusal means, from the table in docs/RECORD.md.
meaning() { # NUMBER
    awk -F '|' -v number="$1" '
        $2 ~ /^ *[0-9]+ *$/ && $2 + 0 == number && $3 ~ /^ *`[A-Za-z]+` *$/ {
            gsub(/[ `]/, "", $3); gsub(/^ +| +$|`/, "", $4)
            print ", " $3 ": " $4
            exit
        }' docs/RECORD.md 2> /dev/null
}
