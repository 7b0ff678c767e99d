//! Where a text of forms 3 and 4, or one in braces, goes wrong: how many of its
//! octets begin some text of its form, of any size. Of canonical text the library
//! tells this. The walk says nothing about whether a text is refused, and is
//! asked only of those that are.

use super::braces;

/// How many octets begin an advanced text, with trees in braces or without.
pub fn advanced(text: &[u8], braces: bool) -> usize {
    let mut walk = Walk { text, at: 0 };
    let _ = walk.sexp(braces);
    walk.at
}

/// How many octets of a text that begins with a brace begin a basic text.
pub fn basic(text: &[u8]) -> usize {
    let mut walk = Walk { text, at: 0 };
    let _ = walk.braces();
    walk.at
}

/// A place up to which all is right.
struct Walk<'a> {
    text: &'a [u8],
    at: usize,
}

/// The octet at the place is wrong, or the text ends there.
struct Wrong;

impl Walk<'_> {
    fn peek(&self) -> Result<u8, Wrong> {
        self.text.get(self.at).copied().ok_or(Wrong)
    }

    /// Passes an octet, if it is right.
    fn pass(&mut self, right: impl Fn(&u8) -> bool) -> Result<u8, Wrong> {
        let octet = self.peek()?;
        right(&octet).then_some(octet).ok_or(Wrong)?;
        self.at += 1;
        Ok(octet)
    }

    fn whitespace(&mut self) {
        while self.pass(|octet| matches!(octet, b' ' | 9..=13)).is_ok() {}
    }

    /// One value, with whitespace around. What is left is wrong.
    fn sexp(&mut self, braces: bool) -> Result<(), Wrong> {
        let mut depth = 0;
        loop {
            self.whitespace();
            match self.peek()? {
                b'(' => (depth, self.at) = (depth + 1, self.at + 1),
                b')' if depth > 0 => (depth, self.at) = (depth - 1, self.at + 1),
                b'[' => self.hinted()?,
                b'{' if braces => self.braces()?,
                _ => self.simple()?,
            }
            if depth == 0 {
                self.whitespace();
                return Ok(());
            }
        }
    }

    fn hinted(&mut self) -> Result<(), Wrong> {
        self.pass(|octet| *octet == b'[')?;
        self.whitespace();
        self.simple()?;
        self.whitespace();
        self.pass(|octet| *octet == b']')?;
        self.whitespace();
        self.simple()
    }

    fn simple(&mut self) -> Result<(), Wrong> {
        let length = match self.peek()? {
            b'0'..=b'9' => Some(self.decimal()?),
            _ => None,
        };
        match (length, self.peek()?) {
            (Some(length), b':') => self.verbatim(length),
            (_, b'"') => self.quoted(length),
            (_, b'#') => self.hexadecimal(length),
            (_, b'|') => self.bars(length),
            (None, _) => self.token(),
            _ => Err(Wrong),
        }
    }

    /// A length. One beyond what can be counted is as good as the longest.
    fn decimal(&mut self) -> Result<usize, Wrong> {
        let mut length = usize::from(self.pass(u8::is_ascii_digit)? - b'0');
        while length > 0 {
            let Ok(digit) = self.pass(u8::is_ascii_digit) else {
                break;
            };
            length = length.saturating_mul(10);
            length = length.saturating_add(usize::from(digit - b'0'));
        }
        Ok(length)
    }

    fn verbatim(&mut self, length: usize) -> Result<(), Wrong> {
        self.at += 1;
        let left = self.text.len() - self.at;
        self.at += length.min(left);
        (length <= left).then_some(()).ok_or(Wrong)
    }

    fn token(&mut self) -> Result<(), Wrong> {
        let mark = |octet: &u8| b"-./_:*+=".contains(octet);
        self.pass(|octet| octet.is_ascii_alphabetic() || mark(octet))?;
        while self
            .pass(|octet| octet.is_ascii_alphanumeric() || mark(octet))
            .is_ok()
        {}
        Ok(())
    }

    fn quoted(&mut self, length: Option<usize>) -> Result<(), Wrong> {
        self.at += 1;
        let mut count = 0;
        loop {
            let full = length == Some(count);
            match self.peek()? {
                b'"' if full || length.is_none() => break,
                b'\\' => count += self.escape(full)?,
                b' ' | b'!' | b'#'..=b'~' if !full => (count, self.at) = (count + 1, self.at + 1),
                _ => return Err(Wrong),
            }
        }
        self.at += 1;
        Ok(())
    }

    /// An escape; how many octets it stands for, which is none where no more may come.
    fn escape(&mut self, full: bool) -> Result<usize, Wrong> {
        self.at += 1;
        let octal = |octet: &u8| matches!(octet, b'0'..=b'7');
        match self.pass(|octet| !full || matches!(octet, b'\r' | b'\n'))? {
            b'\r' => Ok(self.pass(|octet| *octet == b'\n').map_or(0, |_| 0)),
            b'\n' => Ok(self.pass(|octet| *octet == b'\r').map_or(0, |_| 0)),
            b'0'..=b'3' => self.pass(octal).and_then(|_| self.pass(octal)).map(|_| 1),
            b'x' => {
                let digit = u8::is_ascii_hexdigit;
                self.pass(digit).and_then(|_| self.pass(digit)).map(|_| 1)
            }
            b'a' | b'b' | b't' | b'v' | b'n' | b'f' | b'r' | b'"' | b'\'' | b'\\' | b'?' => Ok(1),
            _ => {
                self.at -= 1;
                Err(Wrong)
            }
        }
    }

    fn hexadecimal(&mut self, length: Option<usize>) -> Result<(), Wrong> {
        self.at += 1;
        let (mut digits, most) = (0, length.map(|length| length.saturating_mul(2)));
        loop {
            self.whitespace();
            match self.peek()? {
                b'#' if most.unwrap_or(digits) == digits && digits % 2 == 0 => break,
                octet if octet.is_ascii_hexdigit() && most != Some(digits) => digits += 1,
                _ => return Err(Wrong),
            }
            self.at += 1;
        }
        self.at += 1;
        Ok(())
    }

    /// Base-64 between bars. Where the length is told, it says how many letters
    /// there are, and the last of them has to leave no bits over.
    fn bars(&mut self, length: Option<usize>) -> Result<(), Wrong> {
        let letters = self.letters();
        let letters_of = |length: usize| {
            (length / 3)
                .saturating_mul(4)
                .saturating_add([0, 2, 3][length % 3])
        };
        let most = length.map(letters_of);
        let count = letters.len();
        let values: Vec<u8> = letters.iter().map(|letter| letter.1).collect();
        let wrong = match most {
            Some(most) if count > most && !braces::ends(&values[..most]) => Some(most - 1),
            Some(most) if count > most => Some(most),
            Some(most) if count == most && !braces::ends(&values) => Some(most - 1),
            _ => None,
        };
        self.close(&letters, wrong, b'|', most.unwrap_or(count) == count)
    }

    /// Base-64 of a canonical tree in braces.
    fn braces(&mut self) -> Result<(), Wrong> {
        let letters = self.letters();
        let values: Vec<u8> = letters.iter().map(|letter| letter.1).collect();
        let whole = braces::whole(&braces::octets(&values));
        self.close(&letters, braces::wrong(&values), b'}', whole)
    }

    /// The letters behind an opening mark, each with its place and its value.
    fn letters(&mut self) -> Vec<(usize, u8)> {
        self.at += 1;
        let mut letters = Vec::new();
        loop {
            self.whitespace();
            let Some(value) = self.peek().ok().and_then(braces::letter) else {
                return letters;
            };
            letters.push((self.at, value));
            self.at += 1;
        }
    }

    /// What stands behind letters, one of which may be wrong: `=` and the mark, if
    /// they may end there.
    fn close(
        &mut self,
        letters: &[(usize, u8)],
        wrong: Option<usize>,
        mark: u8,
        may: bool,
    ) -> Result<(), Wrong> {
        if let Some(letter) = wrong {
            self.at = letters[letter].0;
            return Err(Wrong);
        }
        let values: Vec<u8> = letters.iter().map(|letter| letter.1).collect();
        (may && braces::ends(&values)).then_some(()).ok_or(Wrong)?;
        for _ in 0..(4 - letters.len() % 4) % 4 {
            if self.pass(|octet| *octet == b'=').is_ok() {
                self.whitespace();
            }
        }
        self.pass(|octet| *octet == mark).map(drop)
    }
}
