//! Types, as document 01's type words can say them.

use crate::{names::Names, prng::Rng};

#[derive(Clone, Debug, PartialEq, Eq)]
pub enum Ty {
    Void,
    Bool,
    Int,
    Double,
    Str,
    Option(Box<Ty>),
    Array(Box<Ty>),
    Record(Vec<(String, Ty)>),
    Foreign(String),
    Slot(String),
}

/// What the slots of a signature stand for.
pub type Bindings = Vec<(String, Ty)>;

impl Ty {
    pub fn option(inner: Ty) -> Ty {
        Ty::Option(Box::new(inner))
    }

    pub fn array(inner: Ty) -> Ty {
        Ty::Array(Box::new(inner))
    }

    /// 1 with nothing inside.
    pub fn depth(&self) -> usize {
        match self {
            Ty::Option(inner) | Ty::Array(inner) => 1 + inner.depth(),
            Ty::Record(fields) => 1 + fields.iter().map(|(_, t)| t.depth()).max().unwrap_or(0),
            _ => 1,
        }
    }

    pub fn slots(&self, out: &mut Vec<String>) {
        match self {
            Ty::Slot(slot) if !out.contains(slot) => out.push(slot.clone()),
            Ty::Option(inner) | Ty::Array(inner) => inner.slots(out),
            Ty::Record(fields) => fields.iter().for_each(|(_, t)| t.slots(out)),
            _ => {}
        }
    }

    pub fn has_slot(&self) -> bool {
        let mut slots = Vec::new();
        self.slots(&mut slots);
        !slots.is_empty()
    }

    /// Each bound slot replaced.
    pub fn fill(&self, bindings: &Bindings) -> Ty {
        match self {
            Ty::Slot(slot) => {
                let bound = bindings.iter().find(|(name, _)| name == slot);
                bound.map_or_else(|| self.clone(), |(_, ty)| ty.clone())
            }
            Ty::Option(inner) => Ty::option(inner.fill(bindings)),
            Ty::Array(inner) => Ty::array(inner.fill(bindings)),
            Ty::Record(fields) => Ty::Record(
                fields
                    .iter()
                    .map(|(n, t)| (n.clone(), t.fill(bindings)))
                    .collect(),
            ),
            _ => self.clone(),
        }
    }

    /// Whether `ty` is this type for some filling of its slots, which is added to `bindings`.
    pub fn fits(&self, ty: &Ty, bindings: &mut Bindings) -> bool {
        match (self, ty) {
            (Ty::Slot(_), Ty::Void) => false,
            (Ty::Slot(slot), _) => match bindings.iter().find(|(name, _)| name == slot) {
                Some((_, bound)) => bound == ty,
                None => {
                    bindings.push((slot.clone(), ty.clone()));
                    true
                }
            },
            (Ty::Option(a), Ty::Option(b)) | (Ty::Array(a), Ty::Array(b)) => a.fits(b, bindings),
            (Ty::Record(a), Ty::Record(b)) => {
                a.len() == b.len()
                    && a.iter()
                        .zip(b)
                        .all(|((n, t), (m, u))| n == m && t.fits(u, bindings))
            }
            _ => self == ty,
        }
    }
}

/// The type of a record literal or type with fields of these types.
pub fn record(rng: &mut Rng, names: &Names, types: Vec<Ty>) -> Ty {
    let mut fields: Vec<(String, Ty)> = Vec::new();
    for ty in types {
        // Now and then a name stands twice.
        let name = if rng.chance(6) {
            names.any(rng)
        } else {
            names.other_than(rng, |n| fields.iter().any(|(have, _)| have == n))
        };
        fields.push((name, ty));
    }
    Ty::Record(fields)
}

/// A type without slots, at most `depth` deep.
pub fn any(rng: &mut Rng, names: &Names, depth: usize) -> Ty {
    let compound = if depth > 1 { 1 } else { 0 };
    let weights = [
        5,
        14,
        26,
        14,
        14,
        6,
        9 * compound,
        13 * compound,
        14 * compound,
    ];
    match rng.weighted(&weights) {
        0 => Ty::Void,
        1 => Ty::Bool,
        2 => Ty::Int,
        3 => Ty::Double,
        4 => Ty::Str,
        5 => Ty::Foreign(names.any(rng)),
        6 => Ty::option(any(rng, names, depth - 1)),
        7 => Ty::array(any(rng, names, depth - 1)),
        _ => {
            let types = (0..rng.below(4))
                .map(|_| any(rng, names, depth - 1))
                .collect();
            record(rng, names, types)
        }
    }
}

/// A type of a kind that is chosen evenly, to meet all pairs of kinds.
pub fn any_kind(rng: &mut Rng, names: &Names) -> Ty {
    match rng.below(9) {
        0 => Ty::Void,
        1 => Ty::Bool,
        2 => Ty::Int,
        3 => Ty::Double,
        4 => Ty::Str,
        5 => Ty::Foreign(names.any(rng)),
        6 => Ty::option(any(rng, names, 2)),
        7 => Ty::array(any(rng, names, 2)),
        _ => {
            let types = (0..rng.below(4)).map(|_| any(rng, names, 2)).collect();
            record(rng, names, types)
        }
    }
}

/// A type that differs from `ty`: often only a little, to try equality.
pub fn other(rng: &mut Rng, names: &Names, ty: &Ty) -> Ty {
    for _ in 0..20 {
        let other = if rng.chance(50) {
            near(rng, names, ty)
        } else {
            any(rng, names, 3)
        };
        if other != *ty {
            return other;
        }
    }
    if *ty == Ty::Int { Ty::Str } else { Ty::Int }
}

/// `ty` with one thing changed, as a rule.
pub fn near(rng: &mut Rng, names: &Names, ty: &Ty) -> Ty {
    match ty {
        Ty::Option(inner) => match rng.below(4) {
            0 => Ty::Array(inner.clone()),
            1 => (**inner).clone(),
            _ => Ty::option(near(rng, names, inner)),
        },
        Ty::Array(inner) => match rng.below(4) {
            0 => Ty::Option(inner.clone()),
            1 => (**inner).clone(),
            _ => Ty::array(near(rng, names, inner)),
        },
        Ty::Record(fields) if !fields.is_empty() => {
            let mut fields = fields.clone();
            let at = rng.below(fields.len());
            match rng.below(5) {
                0 => fields[at].0 = names.any(rng),
                1 => drop(fields.remove(at)),
                2 => fields.push((names.any(rng), any(rng, names, 1))),
                3 => {
                    let to = rng.below(fields.len());
                    fields.swap(at, to);
                }
                _ => fields[at].1 = near(rng, names, &fields[at].1),
            }
            Ty::Record(fields)
        }
        Ty::Foreign(_) => Ty::Foreign(names.any(rng)),
        _ => match rng.below(6) {
            0 => Ty::option(ty.clone()),
            1 => Ty::array(ty.clone()),
            _ => any(rng, names, 1),
        },
    }
}
