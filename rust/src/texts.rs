use std::iter::FusedIterator;
use std::vec::IntoIter;

/// Texts that a read gave, in their order.
#[derive(Clone, Debug)]
pub struct Texts(pub(crate) IntoIter<Vec<u8>>);

impl Texts {
    /// Those that are left.
    pub fn as_slice(&self) -> &[Vec<u8>] {
        self.0.as_slice()
    }
}

impl Iterator for Texts {
    type Item = Vec<u8>;

    fn next(&mut self) -> Option<Vec<u8>> {
        self.0.next()
    }

    fn size_hint(&self) -> (usize, Option<usize>) {
        self.0.size_hint()
    }
}

impl DoubleEndedIterator for Texts {
    fn next_back(&mut self) -> Option<Vec<u8>> {
        self.0.next_back()
    }
}

impl ExactSizeIterator for Texts {}

impl FusedIterator for Texts {}
