//! One case: decode it and run the checker.

use std::{
    cell::RefCell,
    panic::{AssertUnwindSafe, catch_unwind},
};

use purple_garden_allocators::bump::Bump;
use purple_garden_frontend::{
    ast::{Node, NodeId},
    diagnostic::Diagnostic,
};
use purple_garden_ir::ptype::Type;
use purple_garden_shared::site;
use purple_garden_typecheck::{TypecheckOutput, Typechecker};

use crate::{
    case::Parts,
    decode::{self, Image, Library},
    domain::Run,
    packages::{self, Event, Found},
    sites, visits,
};

pub const NODE_KINDS: [&str; 14] = [
    "Atom", "Ident", "Bin", "Unary", "Let", "Fn", "Match", "Call", "Field", "Cast", "Import",
    "Extern", "Record", "Array",
];

pub const TYPE_KINDS: [&str; 11] = [
    "Void", "Bool", "Int", "Double", "Str", "Option", "Array", "Record", "Foreign", "Slot",
    "Unknown",
];

/// What visited Imports, Externs and Calls do.
pub const USES: [&str; 12] = [
    "import, taken in",
    "import, one of several of its name taken in",
    "import, held already",
    "import, not found",
    "extern, new",
    "extern over a held package",
    "call of the script's function",
    "call of a function alone in its group",
    "call of a group of several",
    "call of a slotted function",
    "call that finds no package or function",
    "call through the field of a value",
];

pub enum Outcome {
    /// the lengths don't fit the input
    Input,
    /// refusals 2 to 5 of document 01
    BadInput,
    /// the Rust stopped dead
    Panic {
        outside: &'static str,
        why: String,
    },
    Answered(Box<Answer>),
}

impl Outcome {
    /// Why the case is outside the domain of equality.
    pub fn outside(&self) -> Option<&'static str> {
        match self {
            Self::Input | Self::BadInput => None,
            Self::Panic { outside, .. } => Some(outside),
            Self::Answered(answer) => answer.outside,
        }
    }
}

pub struct Answer {
    pub outside: Option<&'static str>,
    /// number and type of each slot that has one
    pub slots: Vec<(usize, String)>,
    /// name and signature, in the order of the walk
    pub fns: Vec<String>,
    pub diags: Vec<Diag>,
    pub counts: Counts,
    /// nodes of each kind in the image
    pub present: [usize; 14],
    /// visited nodes of each kind
    pub visited: [usize; 14],
    /// slots whose type is of each kind
    pub slot_kinds: [usize; 11],
    /// visited nodes of each of [`USES`]
    pub uses: [usize; 12],
}

pub struct Diag {
    pub code: u32,
    /// file and line that made it
    pub site: (&'static str, u32),
    pub start: usize,
    pub len: usize,
    pub message: String,
    pub primary: Option<String>,
}

/// What document 01's answer counts as used.
pub struct Counts {
    pub fn_words: usize,
    /// the library's pool included
    pub type_words: usize,
    pub diags: usize,
    /// primary messages included
    pub message_bytes: usize,
}

thread_local! {
    /// Place and message of the last panic.
    static WHY: RefCell<String> = const { RefCell::new(String::new()) };
}

/// Panics are noted and not printed from here on.
pub fn note_panics() {
    std::panic::set_hook(Box::new(|info| {
        let line = info.location().map_or(0, |at| at.line());
        let file = info.location().map_or("", |at| at.file());
        let file = file.rsplit(['/', '\\']).next().unwrap_or_default();
        let message = info.payload_as_str().unwrap_or_default();
        WHY.set(format!("{file}:{line} {message}"));
    }));
}

/// A fault of the oracle itself.
fn fail(why: &str) -> ! {
    eprintln!("oracle: {why}");
    std::process::exit(3)
}

pub fn check(input: &[u8]) -> Outcome {
    let Some(parts) = Parts::split(input) else {
        return Outcome::Input;
    };
    // `Pkg` wants 'static in the original. The arenas and the texts outlive everything below, and
    // only owned values leave this function.
    let (keep, arena, scratch) = (Bump::new(), Bump::new(), Bump::new());
    // SAFETY: see above
    let (script, lib_text, keep, arena, scratch) = unsafe {
        (
            std::mem::transmute::<&[u8], &'static [u8]>(parts.script),
            std::mem::transmute::<&[u8], &'static [u8]>(parts.lib_text),
            std::mem::transmute::<&Bump, &'static Bump>(&keep),
            std::mem::transmute::<&Bump, &'static Bump>(&arena),
            std::mem::transmute::<&Bump, &'static Bump>(&scratch),
        )
    };

    let Ok(lib) = decode::library(&parts.lib, lib_text, keep) else {
        return Outcome::BadInput;
    };
    let Ok(image) = decode::image(&parts.image, script, keep) else {
        return Outcome::BadInput;
    };
    // SAFETY: as above, `image` lives to the end of this function
    let ast = unsafe { std::mem::transmute::<&_, &'static _>(&image.ast) };

    let _ = site::take();
    let run = catch_unwind(AssertUnwindSafe(|| {
        Typechecker::new(ast, arena, scratch)
            .with_stdlib(&[])
            .with_libs(lib.pkgs.iter().collect())
            .check()
    }));
    match run {
        Ok(output) => {
            let answer = answer(&image, &lib, &output, arena.type_words());
            Outcome::Answered(Box::new(answer))
        }
        Err(_) => Outcome::Panic {
            outside: image.outside.unwrap_or("slot"),
            why: WHY.take(),
        },
    }
}

type Output = TypecheckOutput<'static, &'static Bump>;

fn answer(image: &Image, lib: &Library, output: &Output, built: usize) -> Answer {
    let (ast, types) = (&image.ast, &output.types);
    let visited = visits::visited(ast, types);
    let diags = diags(output);
    let (fns, fn_words) = functions(image, output, &visited);
    let bytes = |d: &Diag| d.message.len() + d.primary.as_ref().map_or(0, String::len);
    let counts = Counts {
        fn_words,
        type_words: lib.pool_len + built,
        diags: diags.len(),
        message_bytes: diags.iter().map(bytes).sum(),
    };
    let events = packages::events(ast, lib.pkgs, &visited);
    let run = Run {
        ast,
        lib,
        types,
        visited: &visited,
        events: &events,
        counts: &counts,
    };
    let typed = (0..types.slots()).filter_map(|slot| Some((slot, types.get(slot)?)));
    Answer {
        outside: image.outside.or_else(|| run.outside()),
        slots: typed
            .clone()
            .map(|(slot, ty)| (slot, ty.to_string()))
            .collect(),
        fns,
        diags,
        present: tally(ast.nodes.iter().map(node_kind)),
        visited: tally(visited.iter().map(|&n| node_kind(ast.node(n)))),
        slot_kinds: tally(typed.map(|(_, ty)| type_kind(ty))),
        uses: tally(events.iter().map(use_of)),
        counts,
    }
}

/// Name and signature of each accepted function, and the words that document 01 counts for them.
/// The Rust's own map has no order; the walk gives one.
fn functions(image: &Image, output: &Output, visited: &[NodeId]) -> (Vec<String>, usize) {
    let (mut fns, mut words) = (Vec::new(), 0);
    for &number in visited {
        if let Node::Fn { id, name, .. } = image.ast.node(number)
            // An accepted Fn has its return type in its slot, one of a name already met nothing.
            && output.types.get(*id).is_some()
        {
            let name = name.t.as_str();
            let Some(f) = output.functions.get(name) else {
                fail("an accepted function is missing");
            };
            fns.push(format!("{name} {f}"));
            words += 3 + 2 * f.args.len();
        }
    }
    if fns.len() != output.functions.len() {
        fail("functions accepted and functions listed differ in number");
    }
    (fns, words)
}

fn diags(output: &Output) -> Vec<Diag> {
    let made = site::take();
    if made.len() != output.diagnostics.len() {
        fail("diagnostics made and diagnostics reported differ in number");
    }
    let one = |(diag, at): (&Diagnostic, _)| {
        let site = &sites::SITES[sites::of(diag, at).unwrap_or_else(|why| fail(&why))];
        Diag {
            code: site.code,
            site: (site.file, site.line),
            start: diag.primary.span.start,
            len: diag.primary.span.len,
            message: diag.message.clone(),
            primary: diag.primary.message.clone(),
        }
    };
    output.diagnostics.iter().zip(made).map(one).collect()
}

fn tally<const N: usize>(kinds: impl Iterator<Item = usize>) -> [usize; N] {
    let mut counts = [0; N];
    kinds.for_each(|kind| counts[kind] += 1);
    counts
}

/// The place of a node's kind in [`NODE_KINDS`].
fn node_kind(node: &Node<'_, '_>) -> usize {
    match node {
        Node::Atom { .. } => 0,
        Node::Ident { .. } => 1,
        Node::Bin { .. } => 2,
        Node::Unary { .. } => 3,
        Node::Let { .. } => 4,
        Node::Fn { .. } => 5,
        Node::Match { .. } => 6,
        Node::Call { .. } => 7,
        Node::Field { .. } => 8,
        Node::Cast { .. } => 9,
        Node::Import { .. } => 10,
        Node::Extern { .. } => 11,
        Node::Record { .. } => 12,
        Node::Array { .. } => 13,
    }
}

/// The place of a type's kind in [`TYPE_KINDS`].
fn type_kind(ty: &Type<'_>) -> usize {
    match ty {
        Type::Void => 0,
        Type::Bool => 1,
        Type::Int => 2,
        Type::Double => 3,
        Type::Str => 4,
        Type::Option(_) => 5,
        Type::Array(_) => 6,
        Type::Record(_) => 7,
        Type::Foreign(_) => 8,
        Type::Slot(_) => 9,
        Type::Unknown => 10,
    }
}

/// The place of an event in [`USES`].
fn use_of(event: &Event<'_>) -> usize {
    match event {
        Event::Import { held: true, .. } => 2,
        Event::Import { in_library: 0, .. } => 3,
        Event::Import { in_library: 1, .. } => 0,
        Event::Import { .. } => 1,
        Event::Extern { over_held: false } => 4,
        Event::Extern { over_held: true } => 5,
        Event::Call { finds, .. } => match finds {
            Found::Own => 6,
            Found::Alone => 7,
            Found::Several => 8,
            Found::Slotted(_) => 9,
            Found::Nothing => 10,
            Found::Value => 11,
        },
    }
}
