//! Messages one behind another in one buffer, as they come from a connection: none of them is a block of the heap that the replica grows in.

#[derive(Default)]
pub struct Messages {
    bytes: Vec<u8>,
    ends: Vec<usize>,
}

impl Messages {
    pub fn iter(&self) -> impl Iterator<Item = &[u8]> {
        let starts = std::iter::once(0).chain(self.ends.iter().copied());
        starts
            .zip(&self.ends)
            .map(|(start, end)| &self.bytes[start..*end])
    }
}

impl<B: AsRef<[u8]>> FromIterator<B> for Messages {
    fn from_iter<I: IntoIterator<Item = B>>(each: I) -> Self {
        let mut all = Messages::default();
        for message in each {
            all.bytes.extend_from_slice(message.as_ref());
            all.ends.push(all.bytes.len());
        }
        all
    }
}
