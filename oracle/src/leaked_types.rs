//! Types of the original that live as long as the program: for the programs that print expected output.

use purple_garden_ir::ptype::{Field, Type};

pub type T = Type<'static>;

pub fn name(s: String) -> &'static str {
    s.leak()
}

pub fn boxed(t: T) -> &'static T {
    Box::leak(Box::new(t))
}

pub fn record(fields: &[(&'static str, T)]) -> T {
    let fields: Vec<_> = fields
        .iter()
        .map(|&(name, ty)| Field { name, ty })
        .collect();
    Type::Record(fields.leak())
}
