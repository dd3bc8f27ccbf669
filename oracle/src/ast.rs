//! Stand-in for the expressions that a block holds: a constant or a name.

use std::fmt;

#[derive(Clone, Debug)]
pub enum AstKind<'s> {
    Number(f64),
    Name(&'s str),
}

#[derive(Clone, Debug)]
pub struct Ast<'s> {
    pub kind: AstKind<'s>,
}

impl Ast<'_> {
    /// What stands for the derivative: a copy, for layouts never look at it.
    pub fn tangent(&self) -> Self {
        self.clone()
    }
}

impl fmt::Display for Ast<'_> {
    /// The constant or the name.
    fn fmt(&self, f: &mut fmt::Formatter<'_>) -> fmt::Result {
        match self.kind {
            AstKind::Number(number) => write!(f, "{number}"),
            AstKind::Name(name) => f.write_str(name),
        }
    }
}
