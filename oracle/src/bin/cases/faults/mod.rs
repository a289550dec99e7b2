//! Faults: for each code of document 01 an expression that raises it. Where the rule still gives
//! its node a type, that is the wanted one if it can be had.

mod calls;
mod contexts;
mod values;

use crate::{make::Maker, tree::Node, ty::Ty};

impl Maker<'_> {
    /// An expression that raises `code`; `None` if nothing in scope or in the library allows it.
    pub fn fault(&mut self, code: u32, want: &Ty, size: usize) -> Option<Node> {
        let size = size.max(3);
        match code {
            1 => Some(Node::Array(Vec::new())),
            2 => Some(self.members_differ(size)),
            3 => Some(self.unbound()),
            4 => Some(self.unsupported_operands(size)),
            5 => Some(self.incompatible_operands(size)),
            6 => Some(self.bad_unary(size)),
            7 => Some(self.let_of_void(size)),
            8 => Some(self.defined_already(size)),
            9 => Some(self.bad_return(want, size)),
            10 => Some(Node::cast(self.expr(want, size), want.clone())),
            11 => Some(self.bad_casts(size)),
            12 => Some(self.no_record(size)),
            13 => Some(self.no_field(size)),
            14 => Some(self.call_through_field(size)),
            15 => Some(self.no_package(size)),
            16 => Some(self.undefined_in_package(size)),
            17 => Some(self.undefined_own(size)),
            18 => self.no_specialisation(size),
            19 => Some(self.wrong_count(want, size)),
            20 => self.wrong_argument(want, size),
            21 => self.slot_conflict(size),
            22 => self.slot_void(size),
            23 => Some(self.bad_condition(want, size)),
            24 => Some(self.cases_differ(want, size)),
            25 => Some(Node::Import(Vec::new())),
            26 => Some(self.no_import()),
            _ => None,
        }
    }
}
