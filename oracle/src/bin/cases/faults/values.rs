//! Faults of values, operators, functions and matches.

use crate::{
    make::Maker,
    tree::{Node, Sig},
    ty::{self, Ty},
};

/// Whether two operands of this type pass.
fn takes(op: u32, ty: &Ty) -> bool {
    match op {
        4 => *ty == Ty::Int,
        5 | 6 => matches!(ty, Ty::Int | Ty::Bool | Ty::Str),
        _ => matches!(ty, Ty::Int | Ty::Double),
    }
}

/// Whether a cast passes.
fn converts(from: &Ty, to: &Ty) -> bool {
    matches!(
        (from, to),
        (Ty::Int, Ty::Double | Ty::Bool) | (Ty::Double | Ty::Bool, Ty::Int)
    )
}

impl Maker<'_> {
    /// A type for which `test` holds.
    fn type_where(&mut self, test: impl Fn(&Ty) -> bool) -> Ty {
        loop {
            let ty = ty::any_kind(self.rng, self.names);
            if test(&ty) {
                return ty;
            }
        }
    }

    pub(super) fn members_differ(&mut self, size: usize) -> Node {
        let ty = self.any_type();
        let other = self.other_type(&ty);
        let sizes = self.rng.split(size, 4);
        let mut members = vec![self.expr(&ty, sizes[0])];
        if self.rng.chance(40) {
            members.push(self.expr(&ty, sizes[1]));
        }
        members.push(self.expr(&other, sizes[2]));
        if self.rng.chance(40) {
            members.push(self.unvisited(|m| m.expr(&ty, sizes[3])));
        }
        Node::Array(members)
    }

    pub(super) fn unbound(&mut self) -> Node {
        let scope = &self.scope;
        if let Some(name) = scope.hidden_name()
            && self.rng.chance(80)
        {
            return Node::ident(name);
        }
        let name = self
            .names
            .other_than(self.rng, |n| scope.lookup(n).is_some());
        Node::Ident(name)
    }

    /// An operator, each class of them equally often.
    fn any_operator(&mut self) -> u32 {
        let class: &[u32] = match self.rng.below(4) {
            0 => &[0, 1, 2, 3],
            1 => &[4],
            2 => &[5, 6],
            _ => &[7, 8],
        };
        *self.rng.pick(class)
    }

    pub(super) fn unsupported_operands(&mut self, size: usize) -> Node {
        let op = self.any_operator();
        let ty = self.type_where(|ty| !takes(op, ty));
        let left = self.expr(&ty, size / 2);
        Node::bin(op, left, self.expr(&ty, size / 2))
    }

    pub(super) fn incompatible_operands(&mut self, size: usize) -> Node {
        let op = self.any_operator();
        let ty = self.any_type();
        let other = self.other_type(&ty);
        let left = self.expr(&ty, size / 2);
        Node::bin(op, left, self.expr(&other, size / 2))
    }

    pub(super) fn bad_unary(&mut self, size: usize) -> Node {
        let op = self.rng.below(9) as u32;
        let ty = self.type_where(|ty| op > 1 || !takes(op, ty));
        Node::unary(op, self.expr(&ty, size))
    }

    pub(super) fn let_of_void(&mut self, size: usize) -> Node {
        let right = self.expr(&Ty::Void, size);
        let name = self.names.any(self.rng);
        self.scope.bind(&name, None);
        Node::bind(name, right)
    }

    pub(super) fn defined_already(&mut self, size: usize) -> Node {
        if let Some(first) = self.scope.functions.first() {
            let first = first.name.clone();
            let names: Vec<String> = self
                .scope
                .functions
                .iter()
                .map(|f| f.name.clone())
                .collect();
            let name = if self.rng.chance(30) {
                first
            } else {
                self.rng.pick(&names).clone()
            };
            return self.defined_again(name, size);
        }
        // Nothing is defined yet: a function that is defined again in its own body.
        let sig = Sig {
            name: self.new_function_name(),
            args: self.random_arguments(),
            ret: self.any_type(),
            slotted: false,
        };
        self.scope.functions.push(sig.clone());
        self.scope.enter_function(&sig.args);
        self.scope.enter();
        let again = self.defined_again(sig.name.clone(), 1);
        let end = self.expr(&sig.ret, size);
        self.scope.leave_function();
        Node::Fn(sig, vec![again, end])
    }

    fn defined_again(&mut self, name: String, size: usize) -> Node {
        let sig = Sig {
            name,
            args: self.random_arguments(),
            ret: self.any_type(),
            slotted: false,
        };
        let end = self.any_type();
        self.unvisited(|m| m.function_of(sig, &end, size))
    }

    pub(super) fn bad_return(&mut self, want: &Ty, size: usize) -> Node {
        let sig = Sig {
            name: self.new_function_name(),
            args: self.random_arguments(),
            ret: want.clone(),
            slotted: false,
        };
        let end = if *want != Ty::Void && self.rng.chance(25) {
            Ty::Void
        } else {
            self.other_type(want)
        };
        self.function_of(sig, &end, size)
    }

    /// Up to three casts, of all pairs of kinds.
    pub(super) fn bad_casts(&mut self, size: usize) -> Node {
        let mut casts = Vec::new();
        for _ in 0..self.rng.between(1, 3) {
            let from = ty::any_kind(self.rng, self.names);
            let to = if self.rng.chance(20) {
                let other = self.other_type(&from);
                if converts(&from, &other) {
                    Ty::Void
                } else {
                    other
                }
            } else {
                self.type_where(|to| *to != from && !converts(&from, to))
            };
            casts.push(Node::cast(self.expr(&from, size / 2), to));
        }
        match casts.len() {
            1 => casts.remove(0),
            _ => Node::block(casts),
        }
    }

    pub(super) fn no_record(&mut self, size: usize) -> Node {
        let ty = self.type_where(|ty| !matches!(ty, Ty::Record(_)));
        let name = self.names.any(self.rng);
        Node::field(self.expr(&ty, size), &name)
    }

    pub(super) fn no_field(&mut self, size: usize) -> Node {
        let types = (0..self.rng.below(4)).map(|_| self.any_type()).collect();
        let record = ty::record(self.rng, self.names, types);
        let Ty::Record(fields) = &record else {
            return self.unbound();
        };
        let name = self
            .names
            .other_than(self.rng, |n| fields.iter().any(|(have, _)| have == n));
        Node::field(self.expr(&record, size), &name)
    }

    pub(super) fn bad_condition(&mut self, want: &Ty, size: usize) -> Node {
        let ty = self.type_where(|ty| *ty != Ty::Bool);
        let sizes = self.rng.split(size, 4);
        let mut cases = Vec::new();
        if self.rng.chance(40) {
            let condition = self.expr(&Ty::Bool, sizes[0]);
            cases.push((condition, self.block(want, 1)));
        }
        let condition = self.expr(&ty, sizes[1]);
        cases.push((condition, self.block(want, sizes[2])));
        Node::Match(cases, self.block(want, sizes[3]))
    }

    pub(super) fn cases_differ(&mut self, want: &Ty, size: usize) -> Node {
        let count = self.rng.between(1, 3);
        let sizes = self.rng.split(size, count);
        let mut cases = Vec::new();
        for (i, size) in sizes.into_iter().enumerate() {
            let end = if i == 0 || self.rng.chance(50) {
                self.other_type(want)
            } else {
                want.clone()
            };
            let condition = self.expr(&Ty::Bool, size);
            cases.push((condition, self.block(&end, size)));
        }
        self.rng.shuffle(&mut cases);
        Node::Match(cases, self.block(want, 2))
    }
}
