//! What calls are made on: rows of two numbers each, as many as their square has rows and columns.

use crate::discretise::layout::record;
use crate::discretise::Layout;

pub type Row = [i32; 2];

/// How the rows of a layout come: in order; in order, with a state dependency at each; or in no order.
#[derive(Clone, Copy, PartialEq)]
pub enum Form {
    Plain,
    Deps,
    Mixed,
}

pub const FORMS: [Form; 3] = [Form::Plain, Form::Deps, Form::Mixed];

impl Form {
    /// The name of an operation on layouts of this form.
    pub fn name(self, operation: &str) -> String {
        match self {
            Form::Plain => operation.to_string(),
            Form::Deps => format!("{operation}-deps"),
            Form::Mixed => format!("{operation}-mixed"),
        }
    }
}

/// Numbers that look drawn, and are the same at each run.
pub struct Random(u64);

impl Random {
    /// The numbers for layouts of so many rows.
    pub fn new(rows: usize) -> Self {
        Random(rows as u64 * 77 + 1)
    }

    /// A number below a bound.
    fn below(&mut self, bound: usize) -> usize {
        self.0 =
            self.0.wrapping_mul(6_364_136_223_846_793_005).wrapping_add(1_442_695_040_888_963_407);
        (self.0 >> 33) as usize % bound
    }

    /// The same things in another order.
    pub fn mixed<T: Clone>(&mut self, things: &[T]) -> Vec<T> {
        let mut things = things.to_vec();
        for place in (1..things.len()).rev() {
            things.swap(place, self.below(place + 1));
        }
        things
    }

    /// So many different rows below two extents, in no order.
    pub fn rows(&mut self, count: usize, extents: [usize; 2]) -> Vec<Row> {
        let [e, f] = extents.map(|extent| extent as i32);
        let all: Vec<Row> = (0..e * f).map(|place| [place / f, place % f]).collect();
        self.mixed(&all)[..count].to_vec()
    }
}

/// Some rows in order.
pub fn sorted(rows: &[Row]) -> Vec<Row> {
    let mut rows = rows.to_vec();
    rows.sort();
    rows
}

/// The record of a sparse layout with a dependency on a state at each of some ordered rows.
pub fn sparse(extents: [usize; 2], rows: &[Row], deps: &[Row]) -> Vec<i32> {
    let mut numbers = vec![2, 0, 2, extents[0] as i32, extents[1] as i32, rows.len() as i32];
    numbers.extend(rows.concat());
    with_deps(numbers, deps)
}

/// The record of a dense layout with a dependency on a state at each of some ordered rows.
pub fn dense(extents: [usize; 2], deps: &[Row]) -> Vec<i32> {
    with_deps(vec![0, 2, 2, extents[0] as i32, extents[1] as i32, 0], deps)
}

/// The front of a record, and behind it dependencies on states at some rows and none on inputs.
fn with_deps(mut numbers: Vec<i32>, deps: &[Row]) -> Vec<i32> {
    numbers.push(deps.len() as i32);
    numbers.extend(deps.iter().flat_map(|&[i, j]| [i, j, j]));
    numbers.push(0);
    numbers
}

/// The layout of a record.
pub fn layout(record: &[i32]) -> Layout {
    record::read(record).expect("the records here are sound").0
}

/// Tables of rows, each in order and in no order.
pub struct Tables {
    pub rows: usize,
    ordered: Vec<Vec<Row>>,
    mixed: Vec<Vec<Row>>,
}

impl Tables {
    /// Tables of so many rows, and what each is in no order.
    fn new(random: &mut Random, rows: usize, ordered: Vec<Vec<Row>>) -> Self {
        let mixed = ordered.iter().map(|table| random.mixed(table)).collect();
        Tables { rows, ordered, mixed }
    }

    /// Two tables with half of their rows in common, or all where a union would have more than 128.
    pub fn pair(random: &mut Random, rows: usize) -> Self {
        let common = if 3 * rows / 2 <= 128 { rows / 2 } else { rows };
        let all = random.rows(2 * rows - common, [rows, rows]);
        Self::new(random, rows, vec![sorted(&all[..rows]), sorted(&all[rows - common..])])
    }

    /// Four tables with rows of one pool of twice as many, or of 128.
    pub fn four(random: &mut Random, rows: usize) -> Self {
        let all = random.rows(128.min(2 * rows), [rows, rows]);
        let ordered = (0..4).map(|_| sorted(&random.mixed(&all)[..rows])).collect();
        Self::new(random, rows, ordered)
    }

    /// The extents of the layouts.
    pub fn extents(&self) -> [usize; 2] {
        [self.rows, self.rows]
    }

    /// The rows of one table as a form has them.
    pub fn rows_of(&self, table: usize, form: Form) -> &[Row] {
        if form == Form::Mixed {
            &self.mixed[table]
        } else {
            &self.ordered[table]
        }
    }

    /// The rows at which a form has dependencies.
    fn deps_of(&self, table: usize, form: Form) -> &[Row] {
        if form == Form::Deps {
            &self.ordered[table]
        } else {
            &[]
        }
    }

    /// The record of the sparse layout of one table.
    pub fn sparse(&self, table: usize, form: Form) -> Vec<i32> {
        sparse(self.extents(), self.rows_of(table, form), self.deps_of(table, form))
    }

    /// The record of a dense layout with the dependencies of one table.
    pub fn dense(&self, table: usize, form: Form) -> Vec<i32> {
        dense(self.extents(), self.deps_of(table, form))
    }
}
