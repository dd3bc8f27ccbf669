# What is wrong with a text that a program refused, in one line: its bytes come as numbers. Says nothing where all of it
# can be read. The texts are those of crates/text/specs/Read.antt; crates/union_records/specs and
# crates/exchange_records/specs say what must stand in them. sound.awk goes on where a record can be read.
# Variables: program, its name; number, that of the refusal.

BEGIN { line = 1; column = 0; size = 0; count = 0; in_word = 0; wrong = "" }

{ for (i = 1; i <= NF; i++) take($i + 0) }

END {
    end_word()
    if (size > 65536) wrong = "the text is longer than 65,536 bytes"
    else if (size == 0) wrong = "the input is empty"
    else if (wrong == "" && count == 0) wrong = "the input has no numbers"
    else if (wrong == "" && program == "union_records") wrong = union_wrong()
    else if (wrong == "") wrong = (number == 1) ? count_wrong() : pile_wrong()
    if (wrong != "") print wrong
}

# One byte more: a space or a newline ends a word.
function take(byte) {
    size++
    column++
    if (byte == 32 || byte == 10) {
        end_word()
        if (byte == 10) { line++; column = 0 }
        return
    }
    if (!in_word) begin_word()
    if (byte == 45 && column == word_column) { sign = -1; return }
    digits++
    if (byte < 48 || byte > 57) {
        if (strange == "") strange = "line " line ", column " column ": " named(byte) " is no digit"
    } else if (value < 1e12) value = value * 10 + byte - 48
}

# A word begins here.
function begin_word() {
    in_word = 1
    word_line = line
    word_column = column
    value = digits = 0
    sign = 1
    strange = ""
}

# The word ends: a number more, or what is wrong with the first word that is none.
function end_word() {
    if (!in_word) return
    in_word = 0
    numbers[++count] = sign * value
    where[count] = "line " word_line ", column " word_column
    if (strange == "" && digits == 0) strange = where[count] ": a minus without a digit"
    if (strange == "" && (sign * value > 2147483647 || sign * value < -2147483648))
        strange = where[count] ": the number does not fit 32 bits"
    if (wrong == "") wrong = strange
}

# A byte as a reader knows it.
function named(byte) {
    if (byte == 9) return "a tab"
    if (byte == 13) return "a carriage return"
    if (byte > 32 && byte < 127) return "'" sprintf("%c", byte) "'"
    return "byte " byte
}

# Two records, and nothing behind them; a refusal over 3 is not about what stands in them.
function union_wrong(    second, at) {
    if (number == 1) return over_rank(1, "the first record")
    if (number != 3) return ""
    second = behind(1, "the first record")
    at = behind(second, "the second record")
    if (broken != "") return broken
    if (at <= count) return left_over(at, "the two records")
    unsound(1, "the first record")
    unsound(second, "the second record")
    return broken
}

# A record with more axes than there can be: this one, or the one behind it.
function over_rank(at, record) {
    if (numbers[at + 2] <= 4) { at = behind(at, record); record = "the second record" }
    return where[at + 2] ": " record " has " numbers[at + 2] " axes, and 4 can be"
}

# A count, so many records, a count of pairs, and two numbers for each pair.
function pile_wrong(    at, k) {
    at = 2
    for (k = 1; k <= numbers[1] && broken == ""; k++) at = behind(at, "record " k " of " numbers[1])
    if (broken != "") return broken
    if (at > count) return "the input ends before the count of pairs"
    if (numbers[at] < 0) return where[at] ": the count of pairs is negative"
    if (count - at < 2 * numbers[at])
        return where[at] ": the count of pairs is " numbers[at] ", two numbers each, and " follow(count - at)
    return (count - at > 2 * numbers[at]) ? left_over(at + 1 + 2 * numbers[at], "the pairs") : ""
}

# The count of records of a pile.
function count_wrong() {
    if (numbers[1] >= 0 && numbers[1] <= 16) return ""
    return where[1] ": the count of records is " numbers[1] ", and a pile has 0 to 16"
}

# Numbers that nothing asks for.
function left_over(at, before) {
    return where[at] ": " (count - at + 1) (at == count ? " number is" : " numbers are") " left over behind " before
}

# How many numbers there are.
function follow(n) { return n == 1 ? "1 number follows" : n " numbers follow" }

# The place behind the record at a place; where it is broken, what is wrong with it is kept.
function behind(at, record,    rank, width) {
    if (broken != "") return at
    if (at > count) { broken = "the input ends before " record; return at }
    rank = numbers[at + 2]
    at = section(at + 2, 1, record, "extents")
    if (broken != "") return at
    width = rank - numbers[at - rank - 2]
    if (width < 0) { broken = where[at - rank - 2] ": " record " has more dense axes than axes"; return at }
    at = section(at, width, record, "rows")
    at = section(at, rank + 1, record, "states")
    return section(at, rank + 1, record, "inputs")
}

# The place behind a section whose count stands at a place, with so many numbers an entry.
function section(at, width, record, what) {
    if (broken != "") return at
    if (at > count) broken = record " is cut off: the input ends before the count of its " what
    else if (numbers[at] < 0) broken = where[at] ": " record " has a negative count of " what
    else if (count - at < numbers[at] * width)
        broken = where[at] ": " record " is cut off: the count of its " what " is " numbers[at] ", " \
            (width == 1 ? "a number" : width " numbers") " each, and " follow(count - at)
    return at + 1 + numbers[at] * width
}
