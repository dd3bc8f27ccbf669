# What makes a record unsound that can be read: the rules of crates/rules/specs/Layout.antt, `sound_layout`. It goes with
# reading.awk, and keeps what is wrong in the same place, `broken`.

# The first rule that the record at a place breaks.
function unsound(at, record,    rank, rows, states, inputs, end, i) {
    if (broken != "") return
    rank = numbers[at + 2]
    rows = at + 3 + rank
    states = rows + 1 + numbers[rows] * (rank - numbers[at + 1])
    inputs = states + 1 + numbers[states] * (rank + 1)
    end = inputs + 1 + numbers[inputs] * (rank + 1)
    for (i = at; i < end; i++) if (numbers[i] < 0) { keep(i, record, "has a negative number"); return }
    unsound_head(at, record, rank, rank - numbers[at + 1])
    unsound_rows(at, record, rows, rank - numbers[at + 1])
    unsound_entries(record, states, rank, "states")
    unsound_entries(record, inputs, rank, "inputs")
}

# What is wrong stands at a place; the first that is kept stays.
function keep(at, record, what) { if (broken == "") broken = where[at] ": " record " " what }

# Kind, dense axes and extents.
function unsound_head(at, record, rank, width,    i, product) {
    if (numbers[at] > 2) keep(at, record, "has kind " numbers[at] ", and there are 0, 1 and 2")
    if (numbers[at] == 0 && width > 0) keep(at + 1, record, "is dense, so that it has as many dense axes as axes")
    if (numbers[at] == 1 && width < 1) keep(at + 1, record, "is diagonal, so that it has an axis that is not dense")
    product = 1
    for (i = 1; i <= rank; i++) if (numbers[at + 2 + i] > 0) product *= numbers[at + 2 + i]
    if (product > 65536) keep(at + 3, record, "has extents with a product over 65,536")
    for (i = 2; i <= width && numbers[at] == 1; i++)
        if (numbers[at + 2 + i] != numbers[at + 3]) keep(at + 2 + i, record, "is diagonal, and its extents differ")
}

# Rows: of a sparse record alone, at most 128, below the extents, and all different.
function unsound_rows(at, record, rows, width,    n, i, j, row, seen) {
    n = numbers[rows]
    if (n > 0 && numbers[at] < 2) keep(rows, record, "has rows, and is not sparse")
    if (n > 128) keep(rows, record, "has more than 128 rows")
    for (i = 0; i < n && broken == ""; i++) {
        row = ""
        for (j = 0; j < width; j++) {
            row = row " " numbers[rows + 1 + i * width + j]
            if (numbers[rows + 1 + i * width + j] >= numbers[at + 3 + j])
                keep(rows + 1 + i * width + j, record, "has a row that is not below the extents")
        }
        if (row in seen) keep(width ? rows + 1 + i * width : rows, record, "has a row twice")
        seen[row] = 1
    }
}

# Dependencies: at most 128, components up to 65,535, and each one behind the last.
function unsound_entries(record, first, rank, what,    n, i, j, at, order) {
    n = numbers[first]
    if (n > 128) keep(first, record, "has more than 128 " what)
    for (i = 0; i < n && broken == ""; i++) {
        at = first + 1 + i * (rank + 1)
        order = (i == 0)
        for (j = 0; j <= rank; j++) {
            if (j < rank && numbers[at + j] > 65535) keep(at + j, record, "has a component over 65,535 among its " what)
            if (order == 0) order = numbers[at + j] - numbers[at + j - rank - 1]
        }
        if (order <= 0) keep(at, record, "has " what " that do not increase, by index and then by number")
    }
}
