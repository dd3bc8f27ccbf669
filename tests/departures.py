"""The departures from the Rust that docs/DIFFERENCES.md names, each known by a test of its own: of a request, our answer to it and the Rust's."""


def contraction(request):
    """The numbers of the record that a request contracts, as words; none where it is another request."""
    op, *words = request.split()
    return words[1:-2] if op == '24' else []


def fills_up(request, ours, rust):
    """A contraction that fills up, with no rows over an extent 0 too: dense here; in the Rust dense with its rows and D = 0."""
    if not contraction(request) or not ours.startswith('ok 0 '):
        return False
    ours, theirs = ours.split()[1:], rust.split()[1:]
    rank = int(ours[2])
    head, rows = theirs[:3 + rank], int(theirs[3 + rank])
    behind = theirs[4 + rank + rows * rank:]
    return head == ['0', '0'] + ours[2:3 + rank] and behind == ours[4 + rank:]


def keeps_rows(request, ours, rust):
    """A sparse layout with rows contracted over a dense axis: here one dense axis less and its own rows, in their order; in the Rust the same without rows."""
    record = contraction(request)
    if not ours.startswith('ok ') or record[:1] != ['2'] or int(record[1]) < 1:
        return False
    dense, rank = int(record[1]), int(record[2])
    count = int(record[3 + rank])
    rows = record[3 + rank:4 + rank + count * (rank - dense)]
    head = ['ok', '2', str(dense - 1), str(rank - 1)] + record[3:2 + rank]
    ours, theirs = ours.split(), rust.split()
    behind = ours[len(head + rows):]
    return count > 0 and ours == head + rows + behind and theirs == head + ['0'] + behind


NAMED = {'a contraction that fills up': fills_up, 'a contraction that keeps its rows': keeps_rows}
