//! What lies outside the domain of equality: slots left over in an argument of a slotted function.

use crate::{
    make::Maker,
    tree::{Node, Sig},
    ty::Ty,
};

impl Maker<'_> {
    /// A call of a slotted function whose slots can't be bound, so that its result still holds one,
    /// and a call of a slotted function with that result.
    pub fn leftover(&mut self) -> Option<Vec<Node>> {
        let mut nodes = Vec::new();
        let lib = self.lib;
        for pkg in &lib.packages {
            self.take_in(&pkg.name);
            nodes.push(Node::Import(vec![pkg.name.clone()]));
        }
        let (pkg, first) = self.slotted_where(|f| f.ret.has_slot())?;
        let args = first
            .args
            .iter()
            .map(|(_, ty)| self.unbinding(ty))
            .collect();
        let result = Node::pkg_call(&pkg, &first.name, args);
        let result = match self.rng.below(4) {
            0 => result,
            1 => Node::Array(vec![result]),
            _ => {
                let name = self.names.any(self.rng);
                self.scope.bind(&name, None);
                nodes.push(Node::bind(name.clone(), result));
                Node::Ident(name)
            }
        };

        let (pkg, second) = self.slotted_where(|f| !f.args.is_empty())?;
        let given = self.rng.below(second.args.len());
        let mut args = Vec::new();
        for (i, (_, ty)) in second.args.iter().enumerate() {
            let filled = if ty.has_slot() { Ty::Int } else { ty.clone() };
            args.push(if i == given {
                result.clone()
            } else {
                self.expr(&filled, 2)
            });
        }
        nodes.push(Node::pkg_call(&pkg, &second.name, args));
        Some(nodes)
    }

    fn slotted_where(&mut self, test: impl Fn(&Sig) -> bool) -> Option<(String, Sig)> {
        let mut found = Vec::new();
        for pkg in &self.scope.held {
            let fitting = pkg.fns.iter().filter(|f| f.slotted && test(f));
            found.extend(fitting.map(|f| (pkg.name.clone(), f.clone())));
        }
        (!found.is_empty()).then(|| self.rng.pick(&found).clone())
    }

    /// An argument that binds no slot: poisoned, of an unknown type, Void, or of another shape.
    fn unbinding(&mut self, expected: &Ty) -> Node {
        if !expected.has_slot() {
            return self.expr(expected, 2);
        }
        let empty = Node::Array(Vec::new());
        match self.rng.below(4) {
            0 => empty,
            1 => self.clean(|m| m.smallest(&Ty::Void)),
            2 => Node::Record(vec![(self.names.any(self.rng), empty)]),
            _ if matches!(expected, Ty::Slot(_)) => empty,
            _ => Node::int(),
        }
    }
}
