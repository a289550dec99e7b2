//! Which nodes the checker visited. Nothing here types anything: it is read off the finished run.

use std::alloc::Allocator;

use purple_garden_frontend::{
    ast::{Ast, Node, NodeId},
    typemap::TypeMap,
};

/// The visited nodes, each where its rule acts: an Fn before its body, all others after their
/// parts. A call's target is never visited.
pub fn visited<A: Allocator>(ast: &Ast<'_, '_>, types: &TypeMap<'_, A>) -> Vec<NodeId> {
    let mut walk = Walk {
        ast,
        types,
        met: Vec::new(),
    };
    walk.all(ast.roots);
    walk.met
}

struct Walk<'w, A: Allocator> {
    ast: &'w Ast<'w, 'w>,
    types: &'w TypeMap<'w, A>,
    met: Vec<NodeId>,
}

impl<A: Allocator> Walk<'_, A> {
    fn all(&mut self, nodes: &[NodeId]) {
        for &node in nodes {
            self.node(node);
        }
    }

    fn node(&mut self, number: NodeId) {
        match self.ast.node(number) {
            Node::Atom { .. } | Node::Ident { .. } | Node::Import { .. } | Node::Extern { .. } => {}
            Node::Bin { lhs, rhs, .. } => self.all(&[*lhs, *rhs]),
            Node::Unary { rhs, .. } | Node::Let { rhs, .. } => self.node(*rhs),
            Node::Fn { id, body, .. } => {
                self.met.push(number);
                // One of a name already met has no type, and its body isn't visited.
                if self.types.get(*id).is_some() {
                    self.all(body);
                }
                return;
            }
            Node::Match { cases, default, .. } => {
                for ((_, condition), body) in *cases {
                    self.node(*condition);
                    self.all(body);
                }
                self.all(default.1);
            }
            Node::Call { target, args, .. } => {
                if !self.through_value(*target) {
                    self.all(args);
                }
            }
            Node::Field { target, .. } => self.node(*target),
            Node::Cast { lhs, .. } => self.node(*lhs),
            Node::Record { fields, .. } => {
                for (_, value) in *fields {
                    self.node(*value);
                }
            }
            Node::Array { members, .. } => self.members(members),
        }
        self.met.push(number);
    }

    /// A call through the field of anything but a name visits no argument.
    fn through_value(&self, target: NodeId) -> bool {
        match self.ast.node(target) {
            Node::Field { target, .. } => !matches!(self.ast.node(*target), Node::Ident { .. }),
            _ => false,
        }
    }

    /// A member of another type than the first ends the visits. What is poisoned has no type, or
    /// is Unknown.
    fn members(&mut self, members: &[NodeId]) {
        let known = |member: NodeId| {
            let ty = self.types.get(self.ast.value_id(member));
            ty.filter(|ty| !ty.contains_unknown())
        };
        let differs = |member: &NodeId| match (known(members[0]), known(*member)) {
            (Some(first), Some(ty)) => first != ty,
            _ => false,
        };
        let visits = match members.iter().position(differs) {
            Some(at) => at + 1,
            None => members.len(),
        };
        self.all(&members[..visits]);
    }
}
