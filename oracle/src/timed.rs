//! A case decoded once, for runs of the checker that are timed: see speed/.

use std::{
    hint::black_box,
    time::{Duration, Instant},
};

use purple_garden_allocators::bump::{Arena, Bump};
use purple_garden_shared::site;
use purple_garden_typecheck::Typechecker;

use crate::{
    case::Parts,
    decode::{self, Image, Library},
};

pub struct Prepared {
    image: &'static Image,
    lib: Library,
}

/// What a run took, and what shows that it did its work.
pub struct Run {
    pub took: Duration,
    pub diagnostics: usize,
    pub typed_slots: usize,
}

/// An arena whose first chunk is there already, so that no run is charged for it.
fn warm() -> Bump {
    let arena = Bump::new();
    arena.alloc(0u8);
    arena
}

/// `None` for an input that refusals 2 to 5 refuse. What is decoded is never given back.
pub fn prepare(input: &[u8]) -> Option<Prepared> {
    let input: &'static [u8] = input.to_vec().leak();
    let keep: &'static Bump = Box::leak(Box::new(Bump::new()));
    let parts = Parts::of_any_length(input)?;
    let lib = decode::library(&parts.lib, parts.lib_text, keep).ok()?;
    let image = decode::image(&parts.image, parts.script, keep).ok()?;
    Some(Prepared {
        image: Box::leak(Box::new(image)),
        lib,
    })
}

/// How long it takes to make the Rust's values from the words, rules and limits checked.
pub fn decoding(parts: &Parts<'_>) -> Duration {
    let keep = warm();
    // SAFETY: the decoded values are dropped before this function returns, and the arena and the texts after them.
    let (script, text, arena) = unsafe {
        (
            std::mem::transmute::<&[u8], &'static [u8]>(parts.script),
            std::mem::transmute::<&[u8], &'static [u8]>(parts.lib_text),
            std::mem::transmute::<&Bump, &'static Bump>(&keep),
        )
    };
    let start = Instant::now();
    let lib = decode::library(&parts.lib, text, arena);
    let image = decode::image(&parts.image, script, arena);
    let took = start.elapsed();
    black_box((lib.is_ok(), image.is_ok()));
    took
}

impl Prepared {
    pub fn run(&self) -> Run {
        let (arena, scratch) = (warm(), warm());
        // SAFETY: the output is dropped before this function returns, and the arenas after it.
        let (arena, scratch) = unsafe {
            (
                std::mem::transmute::<&Bump, &'static Bump>(&arena),
                std::mem::transmute::<&Bump, &'static Bump>(&scratch),
            )
        };
        let libs = self.lib.pkgs.iter().collect();
        let _ = site::take();
        let start = Instant::now();
        let output = Typechecker::new(&self.image.ast, arena, scratch)
            .with_stdlib(&[])
            .with_libs(libs)
            .check();
        let took = start.elapsed();
        let types = &output.types;
        Run {
            took,
            diagnostics: output.diagnostics.len(),
            typed_slots: (0..types.slots())
                .filter(|&s| types.get(s).is_some())
                .count(),
        }
    }
}
