//! Calls on two layouts.

use super::bench::{Bench, Case};
use super::operands::{layout, sorted, sparse, Form, Random, Tables, FORMS};
use super::port;

/// `union` and `intersect`; the latter asks for rows in order.
pub fn measure(bench: &Bench, random: &mut Random, two: &Tables) {
    for form in FORMS {
        let records = [two.sparse(0, form), two.sparse(1, form)];
        union(bench, &Case::new(&form.name("union"), two.rows), &records);
        if form != Form::Mixed {
            intersect(bench, &Case::new(&form.name("intersect"), two.rows), &records);
        }
    }
    if two.rows == 64 {
        // no row in common, so that 128 come out
        let all = random.rows(128, two.extents());
        let records =
            [&all[..64], &all[64..]].map(|rows| sparse(two.extents(), &sorted(rows), &[]));
        union(bench, &Case::new("union-apart", two.rows), &records);
    }
}

/// The union of two records.
fn union(bench: &Bench, case: &Case, records: &[Vec<i32>; 2]) {
    let make = || (layout(&records[0]), layout(&records[1]));
    bench.made(case, make, |(x, y)| x.union(y), records, |[x, y], lent| port::union(x, y, lent));
}

/// The intersection of two records.
fn intersect(bench: &Bench, case: &Case, records: &[Vec<i32>; 2]) {
    let make = || (layout(&records[0]), layout(&records[1]));
    bench.made(
        case,
        make,
        |(x, y)| x.intersect(y),
        records,
        |[x, y], lent| port::intersect(x, y, lent),
    );
}
