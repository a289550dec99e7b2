//! What a statement can see: bindings, functions, packages. The generator makes nodes in the order
//! in which the checker visits them, so that this is always what the checker would see.

use crate::{
    library::Package,
    tree::Sig,
    ty::{Bindings, Ty},
};

/// Names and what they are bound to, `None` where that is poisoned.
type Frame = Vec<(String, Option<Ty>)>;

#[derive(Clone, Debug)]
pub struct Scope {
    frames: Vec<Frame>,
    /// the frames around each function that is being made
    around: Vec<Vec<Frame>>,
    pub functions: Vec<Sig>,
    pub held: Vec<Package>,
}

/// Where a function is found.
#[derive(Clone, Copy, Debug)]
pub enum Place {
    Own(usize),
    /// package, function in it
    Held(usize, usize),
}

impl Scope {
    pub fn new() -> Self {
        Self {
            frames: vec![Vec::new()],
            around: Vec::new(),
            functions: Vec::new(),
            held: Vec::new(),
        }
    }

    pub fn enter(&mut self) {
        self.frames.push(Vec::new());
    }

    pub fn leave(&mut self) {
        self.frames.pop();
    }

    /// A function's body sees only its arguments.
    pub fn enter_function(&mut self, args: &[(String, Ty)]) {
        let frame = args
            .iter()
            .map(|(name, ty)| (name.clone(), Some(ty.clone())));
        let frames = std::mem::replace(&mut self.frames, vec![frame.collect()]);
        self.around.push(frames);
    }

    pub fn leave_function(&mut self) {
        self.frames = self.around.pop().unwrap_or_default();
    }

    /// A name that is bound around the function, yet not in it.
    pub fn hidden_name(&self) -> Option<&str> {
        let around = self
            .around
            .iter()
            .flatten()
            .flatten()
            .map(|(name, _)| name.as_str());
        around.rev().find(|name| self.lookup(name).is_none())
    }

    pub fn bind(&mut self, name: &str, ty: Option<Ty>) {
        if let Some(frame) = self.frames.last_mut() {
            frame.push((name.to_owned(), ty));
        }
    }

    /// The last binding of a name is the one that counts.
    pub fn lookup(&self, name: &str) -> Option<&Option<Ty>> {
        let mut bindings = self.frames.iter().rev().flat_map(|f| f.iter().rev());
        bindings.find(|(have, _)| have == name).map(|(_, ty)| ty)
    }

    /// The bindings that a name can reach.
    pub fn visible(&self) -> Vec<(&str, &Option<Ty>)> {
        let mut seen: Vec<(&str, &Option<Ty>)> = Vec::new();
        for (name, ty) in self.frames.iter().rev().flat_map(|f| f.iter().rev()) {
            if !seen.iter().any(|(have, _)| have == name) {
                seen.push((name, ty));
            }
        }
        seen
    }

    pub fn function(&self, name: &str) -> Option<&Sig> {
        self.functions.iter().find(|f| f.name == name)
    }

    pub fn package(&self, name: &str) -> Option<&Package> {
        self.held.iter().find(|p| p.name == name)
    }

    /// Takes a package in, in place of one of its name.
    pub fn hold(&mut self, pkg: Package) {
        self.held.retain(|p| p.name != pkg.name);
        self.held.push(pkg);
    }

    pub fn places(&self) -> Vec<Place> {
        let own = (0..self.functions.len()).map(Place::Own);
        let held = self.held.iter().enumerate();
        let held = held.flat_map(|(p, pkg)| (0..pkg.fns.len()).map(move |f| Place::Held(p, f)));
        own.chain(held).collect()
    }

    pub fn sig(&self, place: Place) -> &Sig {
        match place {
            Place::Own(at) => &self.functions[at],
            Place::Held(pkg, at) => &self.held[pkg].fns[at],
        }
    }

    /// The functions that a call of this one chooses from.
    pub fn group(&self, place: Place) -> Vec<&Sig> {
        match place {
            Place::Own(at) => vec![&self.functions[at]],
            Place::Held(pkg, at) => self.held[pkg].group(&self.held[pkg].fns[at].name),
        }
    }

    /// What its slots must stand for so that a call returns `ty`; `None` if it can't.
    pub fn returning(&self, place: Place, ty: &Ty) -> Option<Bindings> {
        let sig = self.sig(place);
        let mut bindings = Vec::new();
        let fits = if sig.slotted {
            sig.ret.fits(ty, &mut bindings)
        } else {
            sig.ret == *ty && !self.hidden(place)
        };
        fits.then_some(bindings)
    }

    /// Whether an earlier candidate of the group takes the same arguments.
    pub fn hidden(&self, place: Place) -> bool {
        let sig = self.sig(place);
        let first = self
            .group(place)
            .into_iter()
            .find(|f| same_arguments(f, sig));
        first.is_some_and(|first| !std::ptr::eq(first, sig))
    }
}

fn same_arguments(a: &Sig, b: &Sig) -> bool {
    a.args.len() == b.args.len() && a.args.iter().zip(&b.args).all(|((_, t), (_, u))| t == u)
}
