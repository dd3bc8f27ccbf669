"""A picture of a table of tests/speed: what calls cost by the number of rows, both scales logarithmic."""
import math, sys

SHOWN = ('union', 'plus-4-sparse', 'concatenate-grid', 'union-mixed')
SIDES = (('the Rust', '#b5651d', 2), ('the port', '#1f5fa8', 3))
# a panel: its width and height, and the room to the left of the first one, between two, and above
WIDE, HIGH, LEFT, GAP, TOP = 190, 220, 86, 24, 44
LEAST, MOST = 1000, 1000000


def numbers(lines):
    """The cells of each line of a table by operation and rows; other lines are left out."""
    rows = ([cell.strip().replace(',', '') for cell in line.split('|')[1:-1]] for line in lines)
    return {(row[0], int(row[1])): row for row in rows if len(row) == 9 and row[1].isdigit()}


def text(x, y, words, anchor='middle', colour='#333'):
    """Words at a place."""
    return '<text x="%.1f" y="%.1f" text-anchor="%s" fill="%s">%s</text>' % (x, y, anchor, colour, words)


def line(points, colour, width):
    """A line through points."""
    places = ' '.join('%.1f,%.1f' % point for point in points)
    return '<polyline fill="none" stroke="%s" stroke-width="%s" points="%s"/>' % (colour, width, places)


def height(cost):
    """Where a cost stands."""
    return TOP + HIGH * (1 - math.log(cost / LEAST) / math.log(MOST / LEAST))


def panel(table, operation, left):
    """The two lines of an operation, and the scales that they stand in."""
    sizes = sorted(rows for name, rows in table if name == operation)
    step = (WIDE - 28) / math.log(sizes[-1] / sizes[0])
    place = {rows: left + 14 + step * math.log(rows / sizes[0]) for rows in sizes}
    drawn = [text(left + WIDE / 2, TOP - 12, operation, colour='#000')]
    for power in range(3, 7):
        drawn.append(line([(left, height(10 ** power)), (left + WIDE, height(10 ** power))], '#ddd', 1))
    for rows in sizes:
        drawn.append(text(place[rows], TOP + HIGH + 18, rows))
    for _, colour, column in SIDES:
        points = [(place[rows], height(float(table[operation, rows][column]))) for rows in sizes]
        drawn.append(line(points, colour, 2.5))
    return drawn


def picture(lines):
    """The picture of a table's lines, as SVG; each operation shown must be there with two sizes or more."""
    table = numbers(lines)
    for operation in SHOWN:
        if sum(name == operation for name, rows in table) < 2:
            sys.exit('not run: the table has no two sizes of ' + operation)
    wide, high = LEFT + len(SHOWN) * (WIDE + GAP), TOP + HIGH + 50
    head = '<svg xmlns="http://www.w3.org/2000/svg" viewBox="0 0 %d %d" font-family="sans-serif" font-size="13">'
    drawn = [head % (wide, high), '<rect width="100%" height="100%" fill="#fff"/>']
    drawn += [text(LEFT - 8, height(10 ** power) + 4, '{:,}'.format(10 ** power), 'end') for power in range(3, 7)]
    for place, operation in enumerate(SHOWN):
        drawn += panel(table, operation, LEFT + place * (WIDE + GAP))
    drawn.append(text(wide - GAP, high - 10, 'x86-64 instructions of one call, by rows of an operand', 'end'))
    for place, (side, colour, _) in enumerate(SIDES):
        x = LEFT + 110 * place
        drawn.append(line([(x, high - 15), (x + 24, high - 15)], colour, 2.5))
        drawn.append(text(x + 32, high - 10, side, 'start', colour))
    return '\n'.join(drawn + ['</svg>', ''])
