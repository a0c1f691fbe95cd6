//! A job of a bench file: "tag, options (raster, wipe), words; every section after its count".

#[derive(Clone)]
pub struct Job {
    pub tag: Vec<u8>,
    pub options: Vec<u8>,
    pub words: Vec<u16>,
}

impl Job {
    pub fn new(tag: &str, raster: u8, wipe: bool, words: Vec<u16>) -> Self {
        Self {
            tag: tag.into(),
            options: vec![raster, wipe.into()],
            words,
        }
    }

    /// The right counts: "of bytes, for words of words".
    pub fn counts(&self) -> [u32; 3] {
        [self.tag.len(), self.options.len(), self.words.len()].map(|count| count as u32)
    }

    pub fn bytes(&self) -> Vec<u8> {
        self.bytes_with(self.counts())
    }

    /// The sections after these counts, which need not be right.
    pub fn bytes_with(&self, counts: [u32; 3]) -> Vec<u8> {
        let [tag, options, words] = counts.map(u32::to_le_bytes);
        let mut bytes = [&tag, &self.tag[..], &options, &self.options, &words].concat();
        bytes.extend(self.words.iter().flat_map(|word| word.to_le_bytes()));
        bytes
    }
}
