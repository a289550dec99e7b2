//! Where a fault stands. A poisoned part ends some rules and not others, and a record that holds
//! one is of a type with Unknown inside, which two rules ask for.

use crate::{
    make::{Maker, scope::Place},
    tree::Node,
    ty::Ty,
};

impl Maker<'_> {
    /// A statement that uses `fault`, poisoned as a rule, as a part of something.
    pub fn in_context(&mut self, fault: Node) -> Node {
        let part = match self.rng.below(10) {
            0..5 => fault,
            5 => Node::Array(vec![self.unknown_field(fault)]),
            _ => self.unknown_field(fault),
        };
        match self.rng.below(12) {
            0 => part,
            1 | 2 => self.as_member(part),
            3..6 => self.as_argument(part),
            6 => self.as_operand(part),
            7 => self.as_branch(part),
            8 => {
                let name = self.names.any(self.rng);
                Node::field(part, &name)
            }
            9 => self.unknown_field(part),
            10 => self.function_ending(part),
            _ => self.bound_first(part),
        }
    }

    /// A record with `part` as a field.
    fn unknown_field(&mut self, part: Node) -> Node {
        let name = self.names.any(self.rng);
        let mut fields = vec![(name, part)];
        if self.rng.chance(30) {
            let (name, ty) = (self.names.any(self.rng), self.any_type());
            fields.push((name, self.expr(&ty, 2)));
        }
        Node::Record(fields)
    }

    /// An array with `part` among members of one type, or of two.
    fn as_member(&mut self, part: Node) -> Node {
        let ty = self.any_type();
        let mut members = Vec::new();
        for _ in 0..self.rng.between(1, 3) {
            let ty = if self.rng.chance(25) {
                self.any_type()
            } else {
                ty.clone()
            };
            members.push(self.expr(&ty, 2));
        }
        members.insert(self.rng.below(members.len() + 1), part);
        Node::Array(members)
    }

    /// A call with `part` as one of its arguments.
    fn as_argument(&mut self, part: Node) -> Node {
        let takes = |m: &Self, place: &Place| !m.scope.sig(*place).args.is_empty();
        let places = self.scope.places().into_iter();
        let mut places: Vec<Place> = places.filter(|place| takes(self, place)).collect();
        let several: Vec<Place> = places
            .iter()
            .copied()
            .filter(|place| self.scope.group(*place).len() > 1)
            .collect();
        if !several.is_empty() && self.rng.chance(40) {
            places = several;
        }
        if places.is_empty() {
            return self.as_member(part);
        }
        let place = *self.rng.pick(&places);
        let types = self.argument_types(place, Vec::new());
        let mut call = self.call_with(place, &types, 3);
        if let Node::Call(_, args) = &mut call {
            let at = self.rng.below(args.len());
            args[at] = part;
        }
        call
    }

    fn as_operand(&mut self, part: Node) -> Node {
        let op = self.rng.below(9) as u32;
        let ty = self.any_type();
        match self.rng.below(4) {
            0 => Node::unary(op, part),
            1 => Node::cast(part, ty),
            2 => Node::bin(op, part, self.expr(&ty, 2)),
            _ => {
                let left = self.expr(&ty, 2);
                Node::bin(op, left, part)
            }
        }
    }

    /// A match with `part` as a condition, at the end of a case, or at the end of the default.
    fn as_branch(&mut self, part: Node) -> Node {
        let ty = self.any_type();
        let other = if self.rng.chance(30) {
            self.any_type()
        } else {
            ty.clone()
        };
        let place = self.rng.below(3);
        let mut cases = Vec::new();
        for ty in [&ty, &other] {
            let condition = self.expr(&Ty::Bool, 2);
            cases.push((condition, self.block(ty, 2)));
        }
        let mut default = self.block(&ty, 2);
        let at = self.rng.below(2);
        match place {
            0 => cases[at].0 = part,
            1 => cases[at].1.push(part),
            _ => default.push(part),
        }
        Node::Match(cases, default)
    }

    fn function_ending(&mut self, part: Node) -> Node {
        let ret = self.any_type();
        let mut function = self.function(&ret, 2);
        if let Node::Fn(_, body) = &mut function {
            body.push(part);
        }
        function
    }

    /// A binding to `part`, which is then used.
    fn bound_first(&mut self, part: Node) -> Node {
        let name = self.names.any(self.rng);
        let right = Node::bind(name.clone(), part);
        let used = match self.rng.below(3) {
            0 => self.as_argument(Node::Ident(name)),
            1 => self.as_member(Node::Ident(name)),
            _ => self.as_operand(Node::Ident(name)),
        };
        Node::block(vec![right, used])
    }
}
