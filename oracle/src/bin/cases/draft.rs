//! A case before it is bytes.

use oracle::case::{self, MOST_BYTES};

use crate::{
    library::Library,
    pool,
    prng::Rng,
    script::{Fill, Script, Style},
    tree::Node,
};

#[derive(Clone, Debug, Default)]
pub struct Draft {
    pub roots: Vec<Node>,
    /// nodes that no root leads to
    pub unused: Vec<Node>,
    pub lib: Library,
    pub style: Style,
    pub fill: Fill,
    /// the script's text is filled up until the case has so many bytes
    pub bytes: usize,
    /// how it is laid out depends on this alone
    pub seed: u64,
}

impl Draft {
    /// The case; `None` where it passes a limit of document 01.
    pub fn bytes(&self) -> Option<Vec<u8>> {
        let mut rng = Rng::new(self.seed, 0);
        let (lib_text, lib) = pool::encode(&mut rng, &self.lib)?;
        let mut script = Script::new(&mut rng, self.style.clone());
        // What nothing uses may stand before and after the rest.
        let (before, after) = self.unused.split_at(self.unused.len() / 2);
        before.iter().for_each(|node| script.unused(node));
        self.roots.iter().for_each(|node| script.root(node));
        after.iter().for_each(|node| script.unused(node));
        let (mut text, image) = script.finish(&self.fill)?;
        let rest = 16 + 4 * image.len() + lib_text.len() + 4 * lib.len();
        text.resize(text.len().max(self.bytes.saturating_sub(rest)), b'#');
        (rest + text.len() <= MOST_BYTES).then(|| case::join(&text, &image, &lib_text, &lib))
    }
}
