//! Damaged copies of good cases.

mod fields;
mod roles;
mod texts;
mod words;

use std::fmt::Write;

use oracle::{
    case::{self, MOST_BYTES, Parts},
    check::{self, Outcome},
};

use crate::prng::Rng;
use roles::{Role, Words};

/// A case while it is being damaged.
pub struct Broken {
    script: Vec<u8>,
    image: Words,
    lib_text: Vec<u8>,
    lib: Words,
    /// what is done to the finished bytes
    lengths: Option<fn(&mut Rng, &mut Vec<u8>)>,
}

/// Damages a case, or says that there is nothing to damage in this way.
type Damage = fn(&mut Rng, &mut Broken) -> bool;

/// Every kind of damage. Each is chosen equally often.
const KINDS: [(&str, Damage); 37] = [
    ("any word, any value", words::any_value),
    ("any word, one more or less", words::off_by_one),
    ("any word, one bit", words::one_bit),
    ("any word, another kind", words::other_kind),
    ("any word, another payload", words::other_payload),
    ("words cut off", words::cut),
    ("words added", words::grow),
    ("two words swapped", words::swap),
    ("one word taken out", words::take_out),
    ("one word put in", words::put_in),
    ("more than 8,192 words", words::too_many),
    ("header count off by one", fields::header_off_by_one),
    ("header count far off", fields::header_far_off),
    ("count inside off by one", fields::count_off_by_one),
    ("count inside far off", fields::count_far_off),
    ("record length", fields::record_length),
    ("record kind", fields::record_kind),
    ("root number", fields::root_number),
    ("part not below its owner", fields::part_order),
    ("node claimed twice", fields::claimed_twice),
    ("call's target", fields::call_target),
    ("slot owned twice", fields::slot_twice),
    ("slot out of range", fields::slot_range),
    ("type number", fields::type_number),
    ("operator or atom kind", fields::number_out_of_range),
    ("token past its text", fields::token_past_text),
    ("token moved by one", fields::token_moved),
    ("bit 24", fields::bit_24),
    ("bits 25 to 27", fields::bits_25_to_27),
    ("flag", fields::flag),
    ("pool reference", fields::pool_reference),
    ("type of the library", fields::library_type),
    ("two functions of one group", fields::same_group),
    ("depth 64 to 66", fields::depth),
    ("text cut short", texts::cut),
    ("bad UTF-8", texts::bad_utf8),
    ("lengths that don't fit", texts::lengths),
];

impl Broken {
    fn of(case: &[u8]) -> Option<Self> {
        let parts = Parts::split(case)?;
        Some(Self {
            script: parts.script.to_vec(),
            image: roles::image(&parts.image),
            lib_text: parts.lib_text.to_vec(),
            lib: roles::library(&parts.lib),
            lengths: None,
        })
    }

    fn bytes(&self, rng: &mut Rng) -> Vec<u8> {
        let plain = |words: &Words| words.iter().map(|(w, _)| *w).collect::<Vec<u32>>();
        let (image, lib) = (plain(&self.image), plain(&self.lib));
        let mut bytes = case::join(&self.script, &image, &self.lib_text, &lib);
        if let Some(lengths) = self.lengths {
            lengths(rng, &mut bytes);
        }
        bytes
    }

    /// The image's words, or the library's.
    fn side(&mut self, rng: &mut Rng) -> &mut Words {
        if rng.chance(60) {
            &mut self.image
        } else {
            &mut self.lib
        }
    }

    /// A word, of the image or the library, whose role and value pass `test`.
    fn word_where(
        &mut self,
        rng: &mut Rng,
        test: impl Fn(u32, Role) -> bool,
    ) -> Option<&mut (u32, Role)> {
        let passing = |words: &Words| {
            let at = (0..words.len()).filter(|&at| test(words[at].0, words[at].1));
            at.collect::<Vec<usize>>()
        };
        let (image, lib) = (passing(&self.image), passing(&self.lib));
        let (at, words) = if lib.is_empty() || !image.is_empty() && rng.chance(60) {
            (image, &mut self.image)
        } else {
            (lib, &mut self.lib)
        };
        (!at.is_empty()).then(|| &mut words[*rng.pick(&at)])
    }
}

/// How the Rust takes the cases of one kind of damage: `input`, `bad-input`, a panic, an answer.
type Split = [usize; 4];

pub struct Damaged {
    pub batch: Vec<u8>,
    by_kind: Vec<Split>,
    several: Split,
}

/// `count` damaged copies of the cases of `batch` that the Rust answers. Most have one damage,
/// three in ten have two to four.
pub fn damage(batch: &[&[u8]], seed: u64, count: u64) -> Result<Damaged, String> {
    let answered = |case: &&&[u8]| matches!(check::check(case), Outcome::Answered(_));
    let good: Vec<&[u8]> = batch.iter().filter(answered).copied().collect();
    if good.is_empty() {
        return Err("no good case to damage".to_owned());
    }
    let mut damaged = Damaged {
        batch: Vec::new(),
        by_kind: vec![[0; 4]; KINDS.len()],
        several: [0; 4],
    };
    for number in 0..count {
        let rng = &mut Rng::new(seed, number);
        let several = if rng.chance(30) { rng.between(2, 4) } else { 1 };
        let kinds: Vec<usize> = (0..several).map(|_| rng.below(KINDS.len())).collect();
        let mut tries = 0;
        let case = loop {
            tries += 1;
            if tries > 1000 {
                return Err(format!("no case can be damaged by: {}", KINDS[kinds[0]].0));
            }
            let case = *rng.pick(&good);
            if let Some(broken) = break_case(rng, case, &kinds) {
                break broken;
            }
        };
        let outcome = match check::check(&case) {
            Outcome::Input => 0,
            Outcome::BadInput => 1,
            Outcome::Panic { .. } => 2,
            Outcome::Answered(_) => 3,
        };
        match kinds[..] {
            [kind] => damaged.by_kind[kind][outcome] += 1,
            _ => damaged.several[outcome] += 1,
        }
        case::add_to_batch(&case, &mut damaged.batch);
    }
    Ok(damaged)
}

/// The case with these damages, if each changes it.
fn break_case(rng: &mut Rng, case: &[u8], kinds: &[usize]) -> Option<Vec<u8>> {
    let mut broken = Broken::of(case)?;
    for &kind in kinds {
        if !KINDS[kind].1(rng, &mut broken) {
            return None;
        }
    }
    let bytes = broken.bytes(rng);
    let fits = broken.lengths.is_some() || bytes.len() <= MOST_BYTES;
    (fits && bytes != case).then_some(bytes)
}

impl Damaged {
    /// How the Rust takes the damaged cases, for each kind of damage.
    pub fn report(&self) -> String {
        let mut out =
            String::from("damage                        input  bad-input  panic  answered\n");
        let mut all = [0; 4];
        let names = KINDS.iter().map(|(name, _)| *name).chain(["several"]);
        for (name, split) in names.zip(self.by_kind.iter().chain([&self.several])) {
            line(&mut out, name, split);
            for (sum, count) in all.iter_mut().zip(split) {
                *sum += count;
            }
        }
        line(&mut out, "in all", &all);
        out
    }
}

fn line(out: &mut String, name: &str, [input, bad, panic, answered]: &Split) {
    let _ = writeln!(out, "{name:28} {input:6} {bad:10} {panic:6} {answered:9}");
}
