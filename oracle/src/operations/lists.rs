//! Layouts made from lists of layouts.

use crate::answer::{self, ask_sized};
use crate::ast::{Ast, AstKind};
use crate::discretise::layout::{record, size};
use crate::discretise::{ArcLayout, Layout, TensorBlock};
use crate::request::Arguments;

/// The layouts stretched to their common shape and folded as the operator says.
pub fn broadcast(a: &Arguments) -> Option<String> {
    let layouts = a.list(record::read)?;
    let operator = operator(a.numbers[1]);
    let made = size::broadcasting(&layouts, matches!(operator, '*' | '/'));
    Some(ask_sized(made, || Layout::broadcast(layouts, Some(operator)).ok(), answer::layout))
}

/// The character of a number; one that no number names is asked as a plus, a union like any other.
fn operator(number: i32) -> char {
    u32::try_from(number).ok().and_then(char::from_u32).unwrap_or('+')
}

/// The blocks joined to a layout of the asked rank.
pub fn concatenate(a: &Arguments) -> Option<String> {
    let rank = a.count(1)?;
    let blocks = a.list(|numbers| block(numbers, rank))?;
    let made = blocks.iter().map(|block| block.layout().nnz() as f64).sum();
    Some(ask_sized(made, || Layout::concatenate(&blocks, rank).ok(), answer::layout))
}

/// The block at the front of some numbers and the numbers behind it, or nothing.
fn block(numbers: &[i32], rank: usize) -> Option<(TensorBlock<'static>, &[i32])> {
    let (start, rest) = numbers.split_at_checked(rank)?;
    let (&flag, rest) = rest.split_first()?;
    let (layout, rest) = record::read(rest)?;
    let layout = ArcLayout::new(layout);
    let kind = match flag {
        0 => AstKind::Name("content"),
        1 => AstKind::Number(0.0),
        _ => return None,
    };
    let start = record::index(start);
    let block = TensorBlock::new(None, start, Vec::new(), layout.clone(), layout, Ast { kind });
    Some((block, rest))
}
