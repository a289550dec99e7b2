//! Faults of calls and imports.

use crate::{
    library::{self, Package},
    make::{Maker, scope::Place},
    tree::{Node, Sig},
    ty::{self, Ty},
};

/// Whether slot `slot` stands in this type.
fn holds(ty: &Ty, slot: &str) -> bool {
    let mut slots = Vec::new();
    ty.slots(&mut slots);
    slots.iter().any(|s| s == slot)
}

impl Maker<'_> {
    fn random_types(&mut self) -> Vec<Ty> {
        (0..self.rng.below(3)).map(|_| self.any_type()).collect()
    }

    /// A place whose function passes `test`. If none is in scope, a package of the library is
    /// imported for it: the nodes that must be visited before.
    fn place_where(&mut self, test: impl Fn(&Package, &Sig) -> bool) -> Option<(Vec<Node>, Place)> {
        let found = |m: &Self| -> Vec<Place> {
            let places = m.scope.places().into_iter();
            let passes = |place: &Place| match *place {
                Place::Held(pkg, f) => test(&m.scope.held[pkg], &m.scope.held[pkg].fns[f]),
                Place::Own(_) => false,
            };
            places.filter(passes).collect()
        };
        let mut places = found(self);
        let mut before = Vec::new();
        if places.is_empty() {
            let lib = self.lib;
            let mut free = lib.packages.iter().filter(|pkg| {
                let first = lib
                    .package(&pkg.name)
                    .is_some_and(|p| std::ptr::eq(p, *pkg));
                first
                    && self.scope.package(&pkg.name).is_none()
                    && pkg.fns.iter().any(|f| test(pkg, f))
            });
            let name = free.next()?.name.clone();
            self.take_in(&name);
            before.push(Node::Import(vec![name]));
            places = found(self);
        }
        Some((before, *self.rng.pick(&places)))
    }

    /// A call as one expression with what must be visited before it.
    fn after(mut before: Vec<Node>, call: Node) -> Node {
        if before.is_empty() {
            return call;
        }
        before.push(call);
        Node::block(before)
    }

    pub(super) fn call_through_field(&mut self, size: usize) -> Node {
        let name = self.names.any(self.rng);
        let types = self.random_types();
        let ty = self.any_type();
        // Neither the target nor the arguments are visited.
        self.unvisited(|m| {
            let target = match m.expr(&ty, size) {
                Node::Ident(name) => Node::field(Node::Ident(name.clone()), &name),
                target => target,
            };
            let args = m.arguments(&types, 2);
            Node::Call(Box::new(Node::field(target, &name)), args)
        })
    }

    pub(super) fn no_package(&mut self, size: usize) -> Node {
        let types = self.random_types();
        let args = self.arguments(&types, size);
        let held = |m: &Self, n: &str| m.scope.package(n).is_some();
        let missing = self.lib.packages.iter().filter(|p| !held(self, &p.name));
        let missing: Vec<String> = missing.map(|p| p.name.clone()).collect();
        let pkg = if !missing.is_empty() && self.rng.chance(50) {
            self.rng.pick(&missing).clone()
        } else {
            let scope = &self.scope;
            self.names
                .other_than(self.rng, |n| scope.package(n).is_some())
        };
        let name = self.names.any(self.rng);
        Node::pkg_call(&pkg, &name, args)
    }

    pub(super) fn undefined_in_package(&mut self, size: usize) -> Node {
        let mut before = Vec::new();
        if self.scope.held.is_empty() {
            before.push(self.import());
        }
        let at = self.rng.below(self.scope.held.len());
        let pkg = self.scope.held[at].clone();
        let name = self
            .names
            .other_than(self.rng, |n| !pkg.group(n).is_empty());
        let types = self.random_types();
        let args = self.arguments(&types, size);
        Self::after(before, Node::pkg_call(&pkg.name, &name, args))
    }

    pub(super) fn undefined_own(&mut self, size: usize) -> Node {
        let types = self.random_types();
        let args = self.arguments(&types, size);
        let scope = &self.scope;
        let name = self
            .names
            .other_than(self.rng, |n| scope.function(n).is_some());
        Node::call(&name, args)
    }

    pub(super) fn no_specialisation(&mut self, size: usize) -> Option<Node> {
        let several = |pkg: &Package, f: &Sig| pkg.group(&f.name).len() > 1;
        let (before, place) = match self.place_where(several) {
            Some(found) => found,
            None => {
                let before = vec![self.external_group()];
                (before, self.place_where(several)?.1)
            }
        };
        let group: Vec<Sig> = self.scope.group(place).into_iter().cloned().collect();
        let mut types: Vec<Ty> = group[0].args.iter().map(|(_, ty)| ty.clone()).collect();
        for _ in 0..20 {
            match self.rng.below(6) {
                0 => types.push(self.any_type()),
                1 => drop(types.pop()),
                _ if !types.is_empty() => {
                    let at = self.rng.below(types.len());
                    types[at] = self.other_type(&types[at]);
                }
                _ => {}
            }
            let same = |f: &Sig| f.args.iter().map(|(_, ty)| ty).eq(types.iter());
            if !group.iter().any(same) {
                return Some(Self::after(before, self.call_with(place, &types, size)));
            }
        }
        None
    }

    /// An extern of a new name with a group of several.
    fn external_group(&mut self) -> Node {
        let scope = &self.scope;
        let name = self
            .names
            .other_than(self.rng, |n| scope.package(n).is_some());
        let group = self.names.any(self.rng);
        let fns = library::group(self.rng, self.names, &group);
        let pkg = Package {
            name: name.clone(),
            fns: fns.clone(),
        };
        self.scope.hold(pkg);
        Node::Extern(name, fns)
    }

    /// A place where a call finds one function only; a new function if there is none. One that
    /// returns `want` is preferred.
    fn single_place(&mut self, want: &Ty, test: impl Fn(&Sig) -> bool) -> (Vec<Node>, Place) {
        let fits =
            |m: &Self, place: &Place| m.scope.group(*place).len() == 1 && test(m.scope.sig(*place));
        let places = self.scope.places().into_iter();
        let mut places: Vec<Place> = places.filter(|place| fits(self, place)).collect();
        if places.is_empty() {
            let sig = Sig {
                name: self.new_function_name(),
                args: vec![(self.names.any(self.rng), self.any_type())],
                ret: want.clone(),
                slotted: false,
            };
            let own = Place::Own(self.scope.functions.len());
            return (vec![self.function_of(sig, want, 2)], own);
        }
        if self.rng.chance(70) {
            let wanted = |place: &Place| self.scope.returning(*place, want).is_some();
            let returning: Vec<Place> = places.iter().copied().filter(wanted).collect();
            if !returning.is_empty() {
                places = returning;
            }
        }
        (Vec::new(), *self.rng.pick(&places))
    }

    pub(super) fn wrong_count(&mut self, want: &Ty, size: usize) -> Node {
        let (before, place) = self.single_place(want, |_| true);
        let mut types = self.argument_types(place, Vec::new());
        if !types.is_empty() && self.rng.chance(60) {
            types.truncate(self.rng.below(types.len()));
        } else {
            for _ in 0..self.rng.between(1, 2) {
                types.push(self.any_type());
            }
        }
        Self::after(before, self.call_with(place, &types, size))
    }

    pub(super) fn wrong_argument(&mut self, want: &Ty, size: usize) -> Option<Node> {
        if self.rng.chance(40) {
            return self.misshapen_argument(size);
        }
        let (before, place) = self.single_place(want, |f| !f.slotted && !f.args.is_empty());
        let mut types = self.argument_types(place, Vec::new());
        let first = self.rng.below(types.len());
        for (at, ty) in types.iter_mut().enumerate() {
            if at == first || self.rng.chance(30) {
                *ty = self.other_type(ty);
            }
        }
        Some(Self::after(before, self.call_with(place, &types, size)))
    }

    /// An argument of a shape that is not quite a slotted function's: it binds what it can.
    fn misshapen_argument(&mut self, size: usize) -> Option<Node> {
        let compound = |f: &Sig| -> Vec<usize> {
            let holds = |at: &usize| f.args[*at].1.has_slot() && f.args[*at].1.depth() > 1;
            (0..f.args.len()).filter(holds).collect()
        };
        let (before, place) = self.place_where(|_, f| f.slotted && !compound(f).is_empty())?;
        let at = *self.rng.pick(&compound(self.scope.sig(place)));
        let mut types = self.argument_types(place, Vec::new());
        types[at] = ty::near(self.rng, self.names, &types[at]);
        Some(Self::after(before, self.call_with(place, &types, size)))
    }

    /// Arguments of a slotted function, one slot of which stands for another type in each.
    pub(super) fn slot_conflict(&mut self, size: usize) -> Option<Node> {
        let twice = |f: &Sig| {
            let mut slots = Vec::new();
            f.args.iter().for_each(|(_, ty)| ty.slots(&mut slots));
            let holders = |s: &String| f.args.iter().filter(|(_, ty)| holds(ty, s)).count();
            slots.into_iter().find(|s| holders(s) > 1)
        };
        let (before, place) = self.place_where(|_, f| f.slotted && twice(f).is_some())?;
        let sig = self.scope.sig(place).clone();
        let slot = twice(&sig)?;
        let one = self.value_type();
        let two = match self.other_type(&one) {
            Ty::Void => Ty::option(one.clone()),
            two => two,
        };
        let first = self.argument_types(place, vec![(slot.clone(), one)]);
        let second = self.argument_types(place, vec![(slot.clone(), two)]);
        let last = sig.args.iter().rposition(|(_, ty)| holds(ty, &slot))?;
        let types: Vec<Ty> = first
            .into_iter()
            .zip(second)
            .enumerate()
            .map(|(i, (a, b))| if i == last { b } else { a })
            .collect();
        Some(Self::after(before, self.call_with(place, &types, size)))
    }

    pub(super) fn slot_void(&mut self, size: usize) -> Option<Node> {
        let has_slot = |f: &Sig| f.args.iter().any(|(_, ty)| ty.has_slot());
        let (before, place) = self.place_where(|_, f| f.slotted && has_slot(f))?;
        let sig = self.scope.sig(place).clone();
        let holders: Vec<usize> = (0..sig.args.len())
            .filter(|&i| sig.args[i].1.has_slot())
            .collect();
        let at = *self.rng.pick(&holders);
        let mut slots = Vec::new();
        sig.args[at].1.slots(&mut slots);
        let slot = self.rng.pick(&slots).clone();
        let mut types = self.argument_types(place, Vec::new());
        types[at] = self.argument_types(place, vec![(slot, Ty::Void)])[at].clone();
        Some(Self::after(before, self.call_with(place, &types, size)))
    }

    pub(super) fn no_import(&mut self) -> Node {
        let (scope, lib) = (&self.scope, self.lib);
        let known = |n: &str| scope.package(n).is_some() || lib.package(n).is_some();
        let missing = self.names.other_than(self.rng, known);
        let mut paths = vec![missing];
        for pkg in lib.packages.iter().filter(|_| self.rng.chance(30)) {
            paths.push(pkg.name.clone());
        }
        self.rng.shuffle(&mut paths);
        for path in &paths {
            self.take_in(path);
        }
        Node::Import(paths)
    }
}
