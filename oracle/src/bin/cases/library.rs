//! The library of a case: random packages.

use crate::{
    names::Names,
    prng::Rng,
    tree::Sig,
    ty::{self, Ty},
};

#[derive(Clone, Debug, Default)]
pub struct Library {
    pub packages: Vec<Package>,
    /// types of the pool that nothing uses
    pub unused: Vec<Ty>,
    /// further unused words at the end of the pool
    pub fill: usize,
}

#[derive(Clone, Debug)]
pub struct Package {
    pub name: String,
    pub fns: Vec<Sig>,
}

impl Package {
    pub fn group(&self, name: &str) -> Vec<&Sig> {
        self.fns.iter().filter(|f| f.name == name).collect()
    }
}

impl Library {
    /// The package that an Import of this name finds.
    pub fn package(&self, name: &str) -> Option<&Package> {
        self.packages.iter().find(|p| p.name == name)
    }

    /// Some packages, of which at least one has slotted functions and a group of several if
    /// `generous`.
    pub fn random(rng: &mut Rng, names: &Names, generous: bool) -> Self {
        let mut lib = Self::default();
        let count = if generous {
            rng.between(1, 4)
        } else {
            rng.below(4)
        };
        for i in 0..count {
            // Now and then two packages have one name; the first is found.
            let name = if rng.chance(15) {
                names.any(rng)
            } else {
                names.other_than(rng, |n| lib.package(n).is_some())
            };
            lib.packages
                .push(package(rng, names, name, generous && i == 0));
        }
        for _ in 0..rng.below(4) {
            let slots = if rng.chance(20) {
                vec![names.any(rng)]
            } else {
                Vec::new()
            };
            lib.unused.push(with_slots(rng, names, &slots, 4));
        }
        lib
    }
}

fn package(rng: &mut Rng, names: &Names, name: String, generous: bool) -> Package {
    let mut pkg = Package {
        name,
        fns: Vec::new(),
    };
    for _ in 0..rng.below(4) {
        add_plain(rng, names, &mut pkg);
    }
    if generous || rng.chance(40) {
        add_group(rng, names, &mut pkg);
    }
    let slotted = if generous {
        rng.between(2, 4)
    } else {
        rng.below(3)
    };
    for i in 0..slotted {
        let known = generous && i == 0 || rng.chance(45);
        let mut sig = if known {
            classic(rng)
        } else {
            slotted_fn(rng, names)
        };
        // A group of several holds no slotted function.
        sig.name = names.other_than(rng, |n| !pkg.group(n).is_empty());
        pkg.fns.push(sig);
    }
    rng.shuffle(&mut pkg.fns);
    pkg
}

/// Arguments of these types.
pub fn arguments(rng: &mut Rng, names: &Names, types: Vec<Ty>) -> Vec<(String, Ty)> {
    // Two arguments of one name are allowed.
    types.into_iter().map(|ty| (names.any(rng), ty)).collect()
}

/// A function without slots. One of a name already there makes a group of several.
fn add_plain(rng: &mut Rng, names: &Names, pkg: &mut Package) {
    let name = names.other_than(rng, |n| pkg.group(n).iter().any(|f| f.slotted));
    let types = (0..rng.below(4)).map(|_| ty::any(rng, names, 3)).collect();
    let sig = Sig {
        name,
        args: arguments(rng, names, types),
        ret: ty::any(rng, names, 3),
        slotted: false,
    };
    pkg.fns.push(sig);
}

fn add_group(rng: &mut Rng, names: &Names, pkg: &mut Package) {
    let name = names.other_than(rng, |n| !pkg.group(n).is_empty());
    pkg.fns.extend(group(rng, names, &name));
}

/// A group of several, often all of one return type.
pub fn group(rng: &mut Rng, names: &Names, name: &str) -> Vec<Sig> {
    let (shared, ret) = (rng.chance(50), ty::any(rng, names, 2));
    let first: Vec<Ty> = (0..rng.between(1, 2))
        .map(|_| ty::any(rng, names, 2))
        .collect();
    let mut sigs = Vec::new();
    for _ in 0..rng.between(2, 4) {
        let types = first.iter().map(|ty| match rng.chance(30) {
            true => ty.clone(),
            false => ty::other(rng, names, ty),
        });
        let mut types: Vec<Ty> = types.collect();
        if rng.chance(20) {
            types.push(ty::any(rng, names, 1));
        }
        sigs.push(Sig {
            name: name.to_owned(),
            args: arguments(rng, names, types),
            ret: if shared {
                ret.clone()
            } else {
                ty::any(rng, names, 2)
            },
            slotted: false,
        });
    }
    sigs
}

/// A type whose innermost parts may be slots.
fn with_slots(rng: &mut Rng, names: &Names, slots: &[String], depth: usize) -> Ty {
    if !slots.is_empty() && rng.chance(40) {
        return Ty::Slot(rng.pick(slots).clone());
    }
    if depth < 2 || slots.is_empty() {
        return ty::any(rng, names, depth);
    }
    match rng.below(4) {
        0 => Ty::option(with_slots(rng, names, slots, depth - 1)),
        1 => Ty::array(with_slots(rng, names, slots, depth - 1)),
        2 => {
            let types = (0..rng.between(1, 3)).map(|_| with_slots(rng, names, slots, depth - 1));
            let types = types.collect();
            ty::record(rng, names, types)
        }
        _ => ty::any(rng, names, depth),
    }
}

/// A slotted function with any signature. It may even have no slot at all.
fn slotted_fn(rng: &mut Rng, names: &Names) -> Sig {
    let mut slots: Vec<String> = Vec::new();
    for _ in 0..rng.weighted(&[4, 40, 40, 16]) {
        slots.push(names.other_than(rng, |n| slots.iter().any(|s| s == n)));
    }
    let types: Vec<Ty> = (0..rng.between(1, 3))
        .map(|_| with_slots(rng, names, &slots, 4))
        .collect();
    let mut bound = Vec::new();
    types.iter().for_each(|ty| ty.slots(&mut bound));
    Sig {
        name: String::new(),
        args: arguments(rng, names, types),
        ret: with_slots(rng, names, &bound, 3),
        slotted: true,
    }
}

/// One of the slotted functions that packages really have.
fn classic(rng: &mut Rng) -> Sig {
    let t = || Ty::Slot("T".to_owned());
    let u = || Ty::Slot("U".to_owned());
    let pair = |a, b| Ty::Record(vec![("a".to_owned(), a), ("b".to_owned(), b)]);
    let (args, ret) = match rng.below(9) {
        0 => (vec![t()], t()),
        1 => (vec![t()], Ty::option(t())),
        2 => (vec![Ty::option(t()), t()], t()),
        3 => (vec![Ty::array(t()), t()], Ty::array(t())),
        4 => (vec![t(), u()], pair(t(), u())),
        5 => (vec![pair(t(), u())], pair(u(), t())),
        6 => (vec![t(), t()], Ty::Bool),
        7 => (vec![Ty::array(Ty::option(t())), Ty::Int], Ty::option(t())),
        _ => (vec![pair(t(), t()), Ty::Str], t()),
    };
    let names = ["x", "y", "z"].map(str::to_owned);
    Sig {
        name: String::new(),
        args: names.into_iter().zip(args).collect(),
        ret,
        slotted: true,
    }
}
