//! What is lent to the entries beside the memory of a session.

/// What a text says of its size.
#[derive(Clone, Debug, PartialEq, Eq)]
pub struct Counts {
    pub list: u32,
    pub n: u32,
    pub literals: u64,
    pub clauses: u64,
}

/// The buffer for a text, and how much of it is written.
#[derive(Clone, Debug, PartialEq, Eq)]
pub struct Output {
    pub text: Vec<u8>,
    pub written: u32,
}

/// The buffers of a sheet that is run.
#[derive(Clone, Debug, PartialEq, Eq)]
pub struct Run {
    pub answers: Vec<u8>,
    pub output: Output,
}

/// Bytes that depend on their place, none of them one that a text or an answer has.
pub fn pattern(room: usize) -> Vec<u8> {
    (0..room).map(|place| 0x80 | (place as u8).wrapping_mul(167)).collect()
}

impl Output {
    pub fn new(room: usize) -> Self {
        Output { text: pattern(room), written: 77_777_777 }
    }

    /// Takes a text that fits.
    pub fn put(&mut self, text: &[u8]) {
        self.text[..text.len()].copy_from_slice(text);
        self.written = text.len() as u32;
    }

    pub fn written(&self) -> &[u8] {
        &self.text[..self.written as usize]
    }
}

impl Run {
    pub fn new(answers: usize, text: usize) -> Self {
        Run { answers: pattern(answers), output: Output::new(text) }
    }
}
