//! Stands in for src/ast: a function is the mark of its declaration.

pub mod scope;

#[derive(Clone, Debug, Eq, PartialEq)]
pub struct CustomFunction {
    pub mark: usize,
}
