"""Texts that the programs refuse, with what ./run says of each; and texts that look like it and are answered."""

PIPES = b'2 0 2 3 2 2 0 1 2 0 1 0 1 7 0\n'
DENSE = b'0 1 1 2 0 0 0 '


def at(line, column, what):
    """What is said of a place."""
    return 'line %d, column %d: %s' % (line, column, what)


def cut(column, section, numbers, left):
    """What is said of a first record whose section is cut off."""
    why = 'the count of its %s is %s each, and %s' % (section, numbers, left)
    return at(1, column, 'the first record is cut off: ' + why)


def run_of(count, form):
    """So many entries, each with its number."""
    return b' '.join(form % i for i in range(count))


# texts that union_records refuses: the text, the number, and what is said beside its meaning
UNIONS = [
    (b'', 3, 'the input is empty'),
    (b' \n \n', 3, 'the input has no numbers'),
    (b'2 0\n1 x', 3, at(2, 3, "'x' is no digit")),
    (b'2 0\n1 2\t3', 3, at(2, 4, 'a tab is no digit')),
    (b'2 0\r\n', 3, at(1, 4, 'a carriage return is no digit')),
    (b'2 +1', 3, at(1, 3, "'+' is no digit")),
    (b'2 1-', 3, at(1, 4, "'-' is no digit")),
    (b'2 1\n99999999999999x', 3, at(2, 15, "'x' is no digit")),
    (b'\xc3\xa9', 3, at(1, 1, 'byte 195 is no digit')),
    (b'2\0', 3, at(1, 2, 'byte 0 is no digit')),
    (b'2 -\n', 3, at(1, 3, 'a minus without a digit')),
    (b'\n2147483648', 3, at(2, 1, 'the number does not fit 32 bits')),
    (b'2 -2147483649', 3, at(1, 3, 'the number does not fit 32 bits')),
    (b'9' * 400, 3, at(1, 1, 'the number does not fit 32 bits')),
    (b'2', 3, 'the first record is cut off: the input ends before the count of its extents'),
    (b'2 0 -1', 3, at(1, 5, 'the first record has a negative count of extents')),
    (b'2 0 4 1', 3, cut(5, 'extents', '4, a number', '1 number follows')),
    (b'2 3 2 3 2 0 0 0', 3, at(1, 3, 'the first record has more dense axes than axes')),
    (b'2 0 2 3 2 2 0 1 2', 3, cut(11, 'rows', '2, 2 numbers', '3 numbers follow')),
    (b'2 0 2 3 2 0 2147483647', 3, cut(13, 'states', '2147483647, 3 numbers', '0 numbers follow')),
    (PIPES, 3, 'the input ends before the second record'),
    (PIPES + PIPES[:-2], 3, 'the second record is cut off: the input ends before the count of its inputs'),
    (PIPES + PIPES + b' 8 9', 3, at(3, 2, '2 numbers are left over behind the two records')),
    (PIPES + PIPES + b'8', 3, at(3, 1, '1 number is left over behind the two records')),
    (PIPES + PIPES + b' ' * 65536, 3, 'the text is longer than 65,536 bytes'),
    (b'2 0 2147483647 1', 1, at(1, 5, 'the first record has 2147483647 axes, and 4 can be')),
    (DENSE + b'0 1 5 1 1 1 1 1 0 0 0', 1, at(1, 19, 'the second record has 5 axes, and 4 can be')),
    (DENSE + b'0 1 1 3 0 0 0', 6, None),
]

# records that can be read and are not sound: the record, and what is said of it, with its column
UNSOUND = [
    (b'3 1 1 2 0 0 0', 1, 'has kind 3, and there are 0, 1 and 2'),
    (b'0 1 1 2 0 1 -1 0 0', 13, 'has a negative number'),
    (b'0 0 1 2 0 0 0', 3, 'is dense, so that it has as many dense axes as axes'),
    (b'1 1 1 2 0 0 0', 3, 'is diagonal, so that it has an axis that is not dense'),
    (b'1 0 2 2 3 0 0 0', 9, 'is diagonal, and its extents differ'),
    (b'0 2 2 256 257 0 0 0', 7, 'has extents with a product over 65,536'),
    (b'0 1 1 2 1 0 0', 9, 'has rows, and is not sparse'),
    (b'2 0 1 200 129 %s 0 0' % run_of(129, b'%d'), 11, 'has more than 128 rows'),
    (b'2 0 1 2 1 2 0 0', 11, 'has a row that is not below the extents'),
    (b'2 0 1 2 2 1 1 0 0', 13, 'has a row twice'),
    (b'2 1 1 2 2 0 0', 9, 'has a row twice'),
    (b'0 1 1 2 0 129 %s 0' % run_of(129, b'0 %d'), 11, 'has more than 128 states'),
    (b'0 1 1 2 0 0 1 65536 0', 15, 'has a component over 65,535 among its inputs'),
    (b'0 1 1 2 0 2 1 5 1 5 0', 17, 'has states that do not increase, by index and then by number'),
]
for record, column, what in UNSOUND:
    UNIONS.append((record + b'\n' + DENSE, 3, at(1, column, 'the first record ' + what)))
    UNIONS.append((DENSE + b'\n' + record, 3, at(2, column, 'the second record ' + what)))

# texts that exchange_records refuses as a whole
PILES = [
    (b'', 3, 'the input is empty'),
    (b'1 0,', 3, at(1, 4, "',' is no digit")),
    (b'17', 1, at(1, 1, 'the count of records is 17, and a pile has 0 to 16')),
    (b'-1', 1, at(1, 1, 'the count of records is -1, and a pile has 0 to 16')),
    (b'1', 3, 'the input ends before record 1 of 1'),
    (b'2 ' + DENSE + b'0 1', 3, 'record 2 of 2 is cut off: the input ends before the count of its extents'),
    (b'1 ' + DENSE, 3, 'the input ends before the count of pairs'),
    (b'1 ' + DENSE + b'-1', 3, at(1, 17, 'the count of pairs is negative')),
    (b'1 ' + DENSE + b'2 0 0 0', 3, at(1, 17, 'the count of pairs is 2, two numbers each, and 3 numbers follow')),
    (b'1 ' + DENSE + b'1\n0 0 0', 3, at(2, 5, '1 number is left over behind the pairs')),
]

# texts that are answered, a line of refusal too: the program, the text, and what is printed
ANSWERED = [
    ('union_records', DENSE + DENSE, b'0 1\n1 2\n0\n0\n0\n'),
    ('union_records', DENSE + DENSE + b' ' * (65536 - 2 * len(DENSE)), b'0 1\n1 2\n0\n0\n0\n'),
    ('exchange_records', b'0 0', b''),
    ('exchange_records', b'0 1 0 1', b'refused 5\n'),
    ('exchange_records', b'1 7 1 1 2 0 0 0 0', b'refused 3\n'),
    ('answers', b'8 1\n\n99 1\n99\n29 0', b'bad request\nbad request\nunknown\nunknown\nok 0\n'),
]
