//! Type-directed generation: scripts that the checker accepts, with faults where they are wanted.

mod deep;
mod expr;
pub mod scope;
mod stmt;

use crate::{
    library::Library,
    names::Names,
    prng::Rng,
    tree::Node,
    ty::{self, Ty},
};
use scope::Scope;

/// Beyond these only the smallest expressions are made.
const MOST_MADE: usize = 1000;
const MOST_DEPTH: usize = 30;

pub struct Maker<'m> {
    pub rng: &'m mut Rng,
    pub names: &'m Names,
    pub lib: &'m Library,
    pub scope: Scope,
    /// codes of the faults still to be made
    pub faults: Vec<u32>,
    /// percent of expressions that are of another type than the one wanted
    pub noise: u32,
    /// how many package calls are being given arguments
    pub calling: usize,
    made: usize,
    depth: usize,
}

impl<'m> Maker<'m> {
    pub fn new(rng: &'m mut Rng, names: &'m Names, lib: &'m Library) -> Self {
        Self {
            rng,
            names,
            lib,
            scope: Scope::new(),
            faults: Vec::new(),
            noise: 0,
            calling: 0,
            made: 0,
            depth: 0,
        }
    }

    pub fn any_type(&mut self) -> Ty {
        // A type that some function speaks of is likelier to be of use.
        let places = self.scope.places();
        if !places.is_empty() && self.rng.chance(35) {
            let sig = self.scope.sig(*self.rng.pick(&places));
            let at = self.rng.below(sig.args.len() + 1);
            let ty = sig.args.get(at).map_or(&sig.ret, |(_, ty)| ty);
            if !ty.has_slot() {
                return ty.clone();
            }
        }
        ty::any(self.rng, self.names, 3)
    }

    /// A type that a let or a slot can be bound to.
    pub fn value_type(&mut self) -> Ty {
        match self.any_type() {
            Ty::Void => Ty::Int,
            ty => ty,
        }
    }

    pub fn other_type(&mut self, ty: &Ty) -> Ty {
        ty::other(self.rng, self.names, ty)
    }

    /// Nodes that the checker doesn't visit: what they define is not met.
    pub fn unvisited<T>(&mut self, make: impl FnOnce(&mut Self) -> T) -> T {
        let scope = self.scope.clone();
        let made = make(self);
        self.scope = scope;
        made
    }

    /// Nodes without faults and noise.
    pub fn clean<T>(&mut self, make: impl FnOnce(&mut Self) -> T) -> T {
        let faults = std::mem::take(&mut self.faults);
        let noise = std::mem::replace(&mut self.noise, 0);
        let made = make(self);
        self.faults = faults;
        self.noise = noise;
        made
    }

    /// The next wanted fault, if one can be made here.
    fn due_fault(&mut self, percent: u32, want: &Ty, size: usize) -> Option<Node> {
        if self.faults.is_empty() || !self.rng.chance(percent) {
            return None;
        }
        let at = self.rng.below(self.faults.len());
        let code = self.faults[at];
        let node = self.clean(|m| m.fault(code, want, size))?;
        self.faults.remove(at);
        Some(node)
    }
}
