//! Request lines and what stands in them.

use crate::discretise::layout::record;
use crate::discretise::{Layout, Shape};
use crate::operations;

/// The slices and the single numbers of a request, each in their order.
pub struct Arguments<'a> {
    pub slices: Vec<&'a [i32]>,
    pub numbers: Vec<i32>,
}

/// The answer to a line.
pub fn answer(line: &str) -> String {
    let numbers: Option<Vec<i32>> =
        line.split_ascii_whitespace().map(|word| word.parse().ok()).collect();
    let known = numbers.as_deref().and_then(|numbers| {
        let (&op, rest) = numbers.split_first()?;
        let (form, operation) = operations::named(op)?;
        Some((operation, take(form, rest)?))
    });
    match known {
        Some((operation, arguments)) => operation(&arguments).unwrap_or("none".to_string()),
        None => "bad request".to_string(),
    }
}

/// The arguments that a form asks for, S a slice and n a number; nothing where they are others.
fn take<'a>(form: &str, mut rest: &'a [i32]) -> Option<Arguments<'a>> {
    let mut arguments = Arguments { slices: Vec::new(), numbers: Vec::new() };
    for what in form.chars() {
        let (&first, behind) = rest.split_first()?;
        rest = behind;
        if what == 'S' {
            let (slice, behind) = rest.split_at_checked(usize::try_from(first).ok()?)?;
            arguments.slices.push(slice);
            rest = behind;
        } else {
            arguments.numbers.push(first);
        }
    }
    rest.is_empty().then_some(arguments)
}

impl Arguments<'_> {
    /// The layout of a slice, nothing where its record is not sound.
    pub fn layout(&self, slice: usize) -> Option<Layout> {
        Some(record::read(self.slices[slice])?.0)
    }

    /// The shape of a slice, nothing where the Rust has no such shape.
    pub fn shape(&self, slice: usize) -> Option<Shape> {
        Some(shape(self.slices[slice])?.0)
    }

    /// A number as a count, nothing where it is negative.
    pub fn count(&self, number: usize) -> Option<usize> {
        usize::try_from(self.numbers[number]).ok()
    }

    /// The things end to end in the first slice, as many as the first number says.
    pub fn list<T>(&self, read: impl Fn(&[i32]) -> Option<(T, &[i32])>) -> Option<Vec<T>> {
        let mut rest = self.slices[0];
        let mut things = Vec::new();
        for _ in 0..self.count(0)? {
            let (thing, behind) = read(rest)?;
            things.push(thing);
            rest = behind;
        }
        Some(things)
    }
}

/// The shape at the front of some numbers, behind its count, and the numbers behind it.
pub fn shape(numbers: &[i32]) -> Option<(Shape, &[i32])> {
    let (&count, rest) = numbers.split_first()?;
    let (extents, rest) = rest.split_at_checked(usize::try_from(count).ok()?)?;
    Some((record::shape(extents)?, rest))
}
