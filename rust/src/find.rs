//! Sets and device descriptors among any bytes.
use crate::sys::{self, nzg_found};
use std::iter::FusedIterator;

/// What stands among other bytes.
#[derive(Clone, Copy, Debug, PartialEq, Eq, Hash)]
#[non_exhaustive]
pub enum FoundKind {
    /// A whole configuration set.
    Set,
    /// A device descriptor alone, which may stand there by chance.
    Device,
}

/// Something that was found, and where.
#[derive(Clone, Copy, Debug, PartialEq, Eq, Hash)]
pub struct Found<'a> {
    /// What it is.
    pub kind: FoundKind,
    /// The place of its first byte.
    pub place: usize,
    /// Its bytes.
    pub bytes: &'a [u8],
}

/// What stands in some bytes, in order.
#[derive(Clone, Debug)]
pub struct Finds<'a> {
    some: Vec<nzg_found>,
    used: usize,
    at: Option<usize>,
    input: &'a [u8],
}

/// Each whole set and each device descriptor in any bytes, as a firmware image. What is within a set is given with it alone.
///
/// ```
/// let image = [0xff, 9, 2, 9, 0, 0, 1, 0, 0x80, 50, 0xff];
/// let found: Vec<_> = nozzlegorse::find(&image).collect();
/// assert_eq!((found.len(), found[0].place, found[0].bytes), (1, 1, &image[1..10]));
/// ```
pub fn find(bytes: &[u8]) -> Finds<'_> {
    Finds { some: Vec::new(), used: 0, at: Some(0), input: bytes }
}

impl<'a> Iterator for Finds<'a> {
    type Item = Found<'a>;

    fn next(&mut self) -> Option<Found<'a>> {
        if self.used == self.some.len() {
            self.search(self.at?);
        }
        let it = self.some.get(self.used)?;
        self.used += 1;
        Some(Found {
            kind: if it.kind == 1 { FoundKind::Set } else { FoundKind::Device },
            place: it.place,
            bytes: &self.input[it.place..it.place + it.length],
        })
    }
}

impl Finds<'_> {
    /// Finds the next ones from a place on, and where the search goes on after them, if it does.
    fn search(&mut self, start: usize) {
        self.some.resize(4096, nzg_found::default());
        let room = self.some.len();
        let count = unsafe { sys::nzg_find_all(self.input.as_ptr(), self.input.len(), start, self.some.as_mut_ptr(), room) };
        self.some.truncate(count);
        self.at = if count == room { self.some.last().map(|it| it.next) } else { None };
        self.used = 0;
    }
}

impl FusedIterator for Finds<'_> {}
