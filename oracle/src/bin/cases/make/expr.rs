//! Expressions of a wanted type.

use super::{MOST_DEPTH, MOST_MADE, Maker, scope::Place};
use crate::{
    tree::Node,
    ty::{self, Bindings, Ty},
};

/// A way to make an expression.
enum Way {
    Smallest,
    Operator,
    Unary,
    Cast,
    Call(Place, Bindings),
    /// a binding's field
    Field(String, String),
    LiteralField,
    Match,
    Fn,
    Literal,
    Import,
    Extern,
}

impl Maker<'_> {
    /// An expression of type `ty` of about `size` nodes, or a fault or noise in its place.
    pub fn expr(&mut self, ty: &Ty, size: usize) -> Node {
        self.made += 1;
        let size = if self.made > MOST_MADE || self.depth > MOST_DEPTH {
            1
        } else {
            size
        };
        self.depth += 1;
        let node = self.expr_within(ty, size);
        self.depth -= 1;
        node
    }

    fn expr_within(&mut self, ty: &Ty, size: usize) -> Node {
        if let Some(fault) = self.due_fault(7, ty, size) {
            return fault;
        }
        if self.noise > 0 && self.rng.chance(self.noise) {
            if let Some(name) = self.poisoned()
                && self.rng.chance(30)
            {
                return Node::Ident(name);
            }
            let other = self.any_type();
            return self.typed(&other, size);
        }
        self.typed(ty, size)
    }

    fn typed(&mut self, ty: &Ty, size: usize) -> Node {
        if size <= 1 {
            return self.smallest(ty);
        }
        let ways = self.ways(ty, size);
        let weights: Vec<u32> = ways.iter().map(|(weight, _)| *weight).collect();
        let at = self.rng.weighted(&weights);
        let way = ways.into_iter().nth(at).map(|(_, way)| way);
        self.make(way.unwrap_or(Way::Smallest), ty, size - 1)
    }

    fn ways(&mut self, ty: &Ty, size: usize) -> Vec<(u32, Way)> {
        let mut ways = vec![(2, Way::Smallest), (6, Way::LiteralField)];
        match ty {
            Ty::Int | Ty::Double => {
                ways.extend([(30, Way::Operator), (10, Way::Unary), (10, Way::Cast)]);
            }
            Ty::Bool => ways.extend([(30, Way::Operator), (8, Way::Cast)]),
            Ty::Array(_) | Ty::Record(_) => ways.push((25, Way::Literal)),
            Ty::Void => ways.extend([(12, Way::Smallest), (8, Way::Import), (6, Way::Extern)]),
            _ => {}
        }
        if size >= 3 {
            ways.extend([(8, Way::Match), (4, Way::Fn)]);
        }
        if let Some((name, field)) = self.field_of_binding(ty) {
            ways.push((14, Way::Field(name, field)));
        }
        let places = self.scope.places();
        for _ in 0..places.len().min(6) {
            let place = *self.rng.pick(&places);
            if let Some(bindings) = self.scope.returning(place, ty) {
                ways.push((14, Way::Call(place, bindings)));
            }
        }
        ways
    }

    fn make(&mut self, way: Way, ty: &Ty, size: usize) -> Node {
        match way {
            Way::Smallest => self.smallest(ty),
            Way::Operator => self.operator(ty, size),
            Way::Unary => {
                let op = self.rng.below(2) as u32;
                Node::unary(op, self.expr(ty, size))
            }
            Way::Cast => {
                let from = match ty {
                    Ty::Int if self.rng.chance(50) => Ty::Double,
                    Ty::Int => Ty::Bool,
                    _ => Ty::Int,
                };
                Node::cast(self.expr(&from, size), ty.clone())
            }
            Way::Call(place, bindings) => self.call(place, bindings, size),
            Way::Field(name, field) => Node::field(Node::Ident(name), &field),
            Way::LiteralField => self.literal_field(ty, size),
            Way::Match => self.matching(ty, size),
            Way::Fn => self.function(ty, size),
            Way::Literal => self.literal(ty, size),
            Way::Import => self.import(),
            Way::Extern => self.external(),
        }
    }

    /// The smallest expression of a type: one node, or as few as it takes.
    pub fn smallest(&mut self, ty: &Ty) -> Node {
        if let Some(name) = self.binding_of(ty)
            && (self.rng.chance(60) || matches!(ty, Ty::Option(_) | Ty::Foreign(_)))
        {
            return Node::Ident(name);
        }
        match ty {
            Ty::Bool => Node::Atom((*self.rng.pick(&["true", "false"])).to_owned(), 2),
            Ty::Int => Node::Atom(
                (*self.rng.pick(&["0", "1", "42", "65536", ""])).to_owned(),
                3,
            ),
            Ty::Double => Node::Atom((*self.rng.pick(&["0.0", "3.14", "1e9"])).to_owned(), 4),
            Ty::Str => {
                let bytes = self.names.any(self.rng);
                Node::Atom(bytes, 5)
            }
            Ty::Void => {
                let name = self.names.any(self.rng);
                self.scope.bind(&name, Some(Ty::Int));
                Node::bind(name, Node::int())
            }
            Ty::Array(_) | Ty::Record(_) if ty.depth() <= 3 => self.literal(ty, 1),
            _ => match self.simple_call(ty) {
                Some(call) => call,
                None => self.function_passing_on(ty),
            },
        }
    }

    /// A call whose arguments, if any, can be atoms.
    fn simple_call(&mut self, ty: &Ty) -> Option<Node> {
        let atom = |ty: &Ty| matches!(ty, Ty::Bool | Ty::Int | Ty::Double | Ty::Str);
        let simple = |place: &Place| {
            self.scope.sig(*place).args.iter().all(|(_, ty)| atom(ty))
                && self.scope.returning(*place, ty).is_some()
        };
        let places: Vec<Place> = self.scope.places().into_iter().filter(simple).collect();
        if places.is_empty() {
            return None;
        }
        let place = *self.rng.pick(&places);
        Some(self.call(place, Vec::new(), 1))
    }

    /// A function that returns its argument: as an expression it has its return type.
    pub fn function_passing_on(&mut self, ty: &Ty) -> Node {
        let name = self.new_function_name();
        let arg = self.names.any(self.rng);
        let sig = crate::tree::Sig {
            name,
            args: vec![(arg.clone(), ty.clone())],
            ret: ty.clone(),
            slotted: false,
        };
        self.scope.functions.push(sig.clone());
        Node::Fn(sig, vec![Node::Ident(arg)])
    }

    fn operator(&mut self, ty: &Ty, size: usize) -> Node {
        let (op, operand) = match ty {
            Ty::Int => (self.rng.below(5) as u32, Ty::Int),
            Ty::Double => (self.rng.below(4) as u32, Ty::Double),
            _ if self.rng.chance(50) => {
                let operand = self.rng.pick(&[Ty::Int, Ty::Bool, Ty::Str]).clone();
                (5 + self.rng.below(2) as u32, operand)
            }
            _ => {
                let operand = self.rng.pick(&[Ty::Int, Ty::Double]).clone();
                (7 + self.rng.below(2) as u32, operand)
            }
        };
        let sizes = self.rng.split(size, 2);
        let left = self.expr(&operand, sizes[0]);
        Node::bin(op, left, self.expr(&operand, sizes[1]))
    }

    fn literal(&mut self, ty: &Ty, size: usize) -> Node {
        match ty {
            Ty::Array(inner) => {
                let most = size.clamp(1, 4);
                let count = self.rng.between(1, most);
                let sizes = self.rng.split(size, count);
                Node::Array(sizes.into_iter().map(|s| self.expr(inner, s)).collect())
            }
            Ty::Record(fields) => {
                let sizes = self.rng.split(size, fields.len());
                let values = fields.iter().zip(sizes);
                Node::Record(
                    values
                        .map(|((n, t), s)| (n.clone(), self.expr(t, s)))
                        .collect(),
                )
            }
            _ => self.smallest(ty),
        }
    }

    /// `{ .. f: .. }.f`
    fn literal_field(&mut self, ty: &Ty, size: usize) -> Node {
        let mut types: Vec<Ty> = (0..self.rng.below(3)).map(|_| self.any_type()).collect();
        types.insert(self.rng.below(types.len() + 1), ty.clone());
        let record = ty::record(self.rng, self.names, types);
        let Ty::Record(fields) = &record else {
            return self.smallest(ty);
        };
        // A name that stands twice means its first field.
        let first = |name: &str| fields.iter().find(|(n, _)| n == name).map(|(_, t)| t);
        let Some((name, _)) = fields.iter().find(|(n, _)| first(n) == Some(ty)) else {
            return self.smallest(ty);
        };
        Node::field(self.literal(&record, size), name)
    }

    fn matching(&mut self, ty: &Ty, size: usize) -> Node {
        let count = self.rng.below(4).min(size / 2);
        let sizes = self.rng.split(size, 2 * count + 1);
        let mut cases = Vec::new();
        for i in 0..count {
            let condition = self.expr(&Ty::Bool, sizes[2 * i]);
            cases.push((condition, self.block(ty, sizes[2 * i + 1])));
        }
        Node::Match(cases, self.block(ty, sizes[2 * count]))
    }

    /// A call of the function at `place`, the slots that `bindings` leaves open bound to any type.
    pub fn call(&mut self, place: Place, bindings: Bindings, size: usize) -> Node {
        let types = self.argument_types(place, bindings);
        self.call_with(place, &types, size)
    }

    pub fn argument_types(&mut self, place: Place, mut bindings: Bindings) -> Vec<Ty> {
        let sig = self.scope.sig(place).clone();
        let mut slots = Vec::new();
        sig.args.iter().for_each(|(_, ty)| ty.slots(&mut slots));
        for slot in slots {
            if !bindings.iter().any(|(have, _)| *have == slot) {
                bindings.push((slot, self.value_type()));
            }
        }
        sig.args.iter().map(|(_, ty)| ty.fill(&bindings)).collect()
    }

    /// A call with arguments of these types, whether they fit or not.
    pub fn call_with(&mut self, place: Place, types: &[Ty], size: usize) -> Node {
        let name = self.scope.sig(place).name.clone();
        match place {
            Place::Own(_) => Node::call(&name, self.arguments(types, size)),
            Place::Held(pkg, _) => {
                let pkg = self.scope.held[pkg].name.clone();
                Node::pkg_call(&pkg, &name, self.arguments(types, size))
            }
        }
    }

    pub fn arguments(&mut self, types: &[Ty], size: usize) -> Vec<Node> {
        self.calling += 1;
        let sizes = self.rng.split(size, types.len());
        let args = types
            .iter()
            .zip(sizes)
            .map(|(ty, size)| self.expr(ty, size))
            .collect();
        self.calling -= 1;
        args
    }

    /// A binding of this type.
    fn binding_of(&mut self, ty: &Ty) -> Option<String> {
        let visible = self.scope.visible();
        let bound = visible
            .iter()
            .filter(|(_, bound)| bound.as_ref() == Some(ty));
        let names: Vec<String> = bound.map(|(name, _)| (*name).to_owned()).collect();
        (!names.is_empty()).then(|| self.rng.pick(&names).clone())
    }

    /// A binding that holds nothing, since what it was bound to is poisoned.
    fn poisoned(&mut self) -> Option<String> {
        let visible = self.scope.visible();
        let bound = visible.iter().filter(|(_, bound)| bound.is_none());
        let names: Vec<String> = bound.map(|(name, _)| (*name).to_owned()).collect();
        (!names.is_empty()).then(|| self.rng.pick(&names).clone())
    }

    /// A binding of a record, and a field of it that has this type.
    fn field_of_binding(&mut self, ty: &Ty) -> Option<(String, String)> {
        let mut found = Vec::new();
        for (name, bound) in self.scope.visible() {
            if let Some(Ty::Record(fields)) = bound {
                let first = |field: &str| fields.iter().find(|(n, _)| n == field);
                let fitting = fields
                    .iter()
                    .filter(|(n, _)| first(n).is_some_and(|(_, t)| t == ty));
                found.extend(fitting.map(|(field, _)| (name.to_owned(), field.clone())));
            }
        }
        (!found.is_empty()).then(|| self.rng.pick(&found).clone())
    }
}
