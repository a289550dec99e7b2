//! Nests of an exact depth, of nodes and of types.

use super::Maker;
use crate::{
    tree::{Node, Sig},
    ty::{self, Ty},
};

impl Maker<'_> {
    /// An Int expression exactly `levels` deep.
    pub fn deep(&mut self, levels: usize) -> Node {
        match levels {
            0 | 1 => Node::int(),
            2 => {
                let inner = self.deep(1);
                self.one_deeper(inner)
            }
            _ if self.rng.chance(70) => {
                let inner = self.deep(levels - 1);
                self.one_deeper(inner)
            }
            _ => {
                let inner = self.deep(levels - 2);
                self.two_deeper(inner)
            }
        }
    }

    fn one_deeper(&mut self, inner: Node) -> Node {
        match self.rng.below(6) {
            0 => Node::unary(self.rng.below(2) as u32, inner),
            1 => Node::bin(self.rng.below(5) as u32, inner, Node::int()),
            2 => Node::bin(self.rng.below(5) as u32, Node::int(), inner),
            3 => Node::block(vec![inner]),
            4 => {
                let yes = Node::Atom("true".to_owned(), 2);
                Node::Match(vec![(yes, vec![inner])], vec![Node::int()])
            }
            _ => {
                let sig = Sig {
                    name: self.new_function_name(),
                    args: Vec::new(),
                    ret: Ty::Int,
                    slotted: false,
                };
                self.scope.functions.push(sig.clone());
                Node::Fn(sig, vec![inner])
            }
        }
    }

    fn two_deeper(&mut self, inner: Node) -> Node {
        match self.rng.below(3) {
            0 => Node::cast(Node::cast(inner, Ty::Double), Ty::Int),
            1 => {
                let name = self.names.any(self.rng);
                Node::field(Node::Record(vec![(name.clone(), inner)]), &name)
            }
            _ => {
                let condition = Node::bin(5, inner, Node::int());
                Node::Match(vec![(condition, vec![Node::int()])], vec![Node::int()])
            }
        }
    }

    /// A type exactly `levels` deep.
    pub fn deep_type(&mut self, levels: usize) -> Ty {
        let mut ty = Ty::Int;
        for _ in 1..levels {
            ty = match self.rng.below(3) {
                0 => Ty::option(ty),
                1 => Ty::array(ty),
                _ => ty::record(self.rng, self.names, vec![ty]),
            };
        }
        ty
    }

    /// A statement that adds a type exactly `levels` deep, which must be 2 or more.
    pub fn deep_type_statement(&mut self, levels: usize) -> Node {
        match self.rng.below(4) {
            0 => self.deep_literal(levels),
            1 => {
                let ty = self.deep_type(levels);
                self.function_passing_on(&ty)
            }
            2 => {
                let name = self.names.other_than(self.rng, |_| false);
                let sig = Sig {
                    name: self.names.any(self.rng),
                    args: Vec::new(),
                    ret: self.deep_type(levels),
                    slotted: false,
                };
                Node::Extern(name, vec![sig])
            }
            _ => self.deep_by_slot(levels),
        }
    }

    fn deep_literal(&mut self, levels: usize) -> Node {
        let mut node = Node::int();
        for _ in 1..levels {
            node = if self.rng.chance(50) {
                Node::Array(vec![node])
            } else {
                let name = self.names.any(self.rng);
                Node::Record(vec![(name, node)])
            };
        }
        node
    }

    /// A slotted function that puts an Option around its argument takes the type that far.
    fn deep_by_slot(&mut self, levels: usize) -> Node {
        let wraps = |f: &&Sig| match &f.args[..] {
            [(_, arg @ Ty::Slot(_))] => f.ret == Ty::option(arg.clone()),
            _ => false,
        };
        let held = self.scope.held.iter();
        let mut found = held.flat_map(|p| p.fns.iter().filter(wraps).map(move |f| (p, f)));
        let Some((pkg, f)) = found.next().map(|(p, f)| (p.name.clone(), f.name.clone())) else {
            return self.deep_literal(levels);
        };
        let arg = self.names.any(self.rng);
        let inner = self.deep_type(levels - 1);
        let sig = Sig {
            name: self.new_function_name(),
            args: vec![(arg.clone(), inner.clone())],
            ret: Ty::option(inner),
            slotted: false,
        };
        self.scope.functions.push(sig.clone());
        Node::Fn(sig, vec![Node::pkg_call(&pkg, &f, vec![Node::Ident(arg)])])
    }
}
