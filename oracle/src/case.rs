//! The bench's input of document 01 ("Bench rows"), and batches: a run of [u32 LE length][case].

/// The bench reads no more than this.
pub const MOST_BYTES: usize = 65536;

/// The four parts of a case.
pub struct Parts<'c> {
    pub script: &'c [u8],
    pub image: Vec<u32>,
    pub lib_text: &'c [u8],
    pub lib: Vec<u32>,
}

impl<'c> Parts<'c> {
    /// `None` where the lengths do not fit the input.
    pub fn split(input: &'c [u8]) -> Option<Self> {
        if input.len() > MOST_BYTES {
            return None;
        }
        Self::of_any_length(input)
    }

    /// As `split`, for inputs that are too long for the bench.
    pub fn of_any_length(input: &'c [u8]) -> Option<Self> {
        let (head, mut rest) = input.split_first_chunk::<16>()?;
        let lengths = words(head);
        let mut part = |bytes: u64| -> Option<&'c [u8]> {
            let (part, tail) = rest.split_at_checked(usize::try_from(bytes).ok()?)?;
            rest = tail;
            Some(part)
        };
        let script = part(u64::from(lengths[0]))?;
        let image = words(part(4 * u64::from(lengths[1]))?);
        let lib_text = part(u64::from(lengths[2]))?;
        let lib = words(part(4 * u64::from(lengths[3]))?);
        rest.is_empty().then_some(Self {
            script,
            image,
            lib_text,
            lib,
        })
    }
}

fn words(bytes: &[u8]) -> Vec<u32> {
    bytes
        .chunks_exact(4)
        .map(|w| u32::from_le_bytes(w.try_into().unwrap()))
        .collect()
}

/// A case of these four parts.
pub fn join(script: &[u8], image: &[u32], lib_text: &[u8], lib: &[u32]) -> Vec<u8> {
    let mut out = Vec::new();
    for len in [script.len(), image.len(), lib_text.len(), lib.len()] {
        out.extend_from_slice(&(len as u32).to_le_bytes());
    }
    out.extend_from_slice(script);
    out.extend(image.iter().flat_map(|w| w.to_le_bytes()));
    out.extend_from_slice(lib_text);
    out.extend(lib.iter().flat_map(|w| w.to_le_bytes()));
    out
}

/// The cases of a batch.
pub fn batch(bytes: &[u8]) -> Result<Vec<&[u8]>, &'static str> {
    let (mut cases, mut rest) = (Vec::new(), bytes);
    while !rest.is_empty() {
        let Some((len, tail)) = rest.split_first_chunk::<4>() else {
            return Err("batch ends inside a length");
        };
        let len = u32::from_le_bytes(*len) as usize;
        let Some((case, tail)) = tail.split_at_checked(len) else {
            return Err("batch ends inside a case");
        };
        cases.push(case);
        rest = tail;
    }
    Ok(cases)
}

pub fn add_to_batch(case: &[u8], batch: &mut Vec<u8>) {
    batch.extend_from_slice(&(case.len() as u32).to_le_bytes());
    batch.extend_from_slice(case);
}
