//! A place in a source.

/// Walks over octets; every step that finds too few of them gives `None`.
pub struct Cursor<'a> {
    rest: &'a [u8],
}

impl<'a> Cursor<'a> {
    /// A cursor before the first octet.
    pub fn new(source: &'a [u8]) -> Self {
        Cursor { rest: source }
    }

    /// The octet ahead, left in place.
    pub fn peek(&self) -> Option<u8> {
        self.rest.first().copied()
    }

    /// Takes the octet ahead.
    pub fn step(&mut self) -> Option<u8> {
        let (first, rest) = self.rest.split_first()?;
        self.rest = rest;
        Some(*first)
    }

    /// Takes the octet ahead if it is this one.
    pub fn eat(&mut self, octet: u8) -> Option<()> {
        self.rest = self.rest.strip_prefix(&[octet])?;
        Some(())
    }

    /// Takes that many octets.
    pub fn take(&mut self, count: usize) -> Option<&'a [u8]> {
        let (taken, rest) = self.rest.split_at_checked(count)?;
        self.rest = rest;
        Some(taken)
    }

    /// Takes the longest run of octets that the test holds for.
    pub fn run(&mut self, test: impl Fn(u8) -> bool) -> &'a [u8] {
        let count = self.rest.iter().take_while(|octet| test(**octet)).count();
        let (taken, rest) = self.rest.split_at(count);
        self.rest = rest;
        taken
    }

    /// Takes what stands before the next `mark`, and the mark.
    pub fn until(&mut self, mark: u8) -> Option<&'a [u8]> {
        let taken = self.run(|octet| octet != mark);
        self.eat(mark)?;
        Some(taken)
    }
}
