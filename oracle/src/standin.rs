//! A stand-in for the crate unscanny: those functions of its `Scanner` that
//! the published date.rs calls, with the same meaning.

/// Walks over a string. The cursor is a byte index on a character boundary.
#[derive(Debug, Copy, Clone)]
pub struct Scanner<'a> {
    string: &'a str,
    cursor: usize,
}

impl<'a> Scanner<'a> {
    /// Starts at the beginning of the string.
    #[inline]
    pub fn new(string: &'a str) -> Self {
        Self { string, cursor: 0 }
    }

    /// The byte index of the cursor.
    #[inline]
    pub fn cursor(&self) -> usize {
        self.cursor
    }

    /// Whether everything was eaten.
    #[inline]
    pub fn done(&self) -> bool {
        self.cursor == self.string.len()
    }

    /// What stands before the cursor.
    #[inline]
    pub fn before(&self) -> &'a str {
        &self.string[..self.cursor]
    }

    /// What stands from `start` to the cursor, nothing if that is no slice.
    #[inline]
    pub fn from(&self, start: usize) -> &'a str {
        self.string.get(start..self.cursor).unwrap_or_default()
    }

    /// The character behind the cursor.
    #[inline]
    pub fn peek(&self) -> Option<char> {
        self.after().chars().next()
    }

    /// Eats one character.
    #[inline]
    pub fn eat(&mut self) -> Option<char> {
        let c = self.peek()?;
        self.cursor += c.len_utf8();
        Some(c)
    }

    /// Eats the pattern if it stands behind the cursor.
    #[inline]
    pub fn eat_if<T>(&mut self, mut pattern: impl Pattern<T>) -> bool {
        match pattern.matches(self.after()) {
            Some(len) => {
                self.cursor += len;
                true
            }
            None => false,
        }
    }

    /// Eats while the pattern stands behind the cursor.
    #[inline]
    pub fn eat_while<T>(&mut self, mut pattern: impl Pattern<T>) -> &'a str {
        let start = self.cursor;
        while let Some(len) = pattern.matches(self.after()) {
            self.cursor += len;
        }
        &self.string[start..self.cursor]
    }

    /// Eats white space.
    #[inline]
    pub fn eat_whitespace(&mut self) -> &'a str {
        self.eat_while(char::is_whitespace)
    }

    /// Moves the cursor to a byte index, back to a boundary if it is none.
    #[inline]
    pub fn jump(&mut self, target: usize) {
        let mut target = target.min(self.string.len());
        while !self.string.is_char_boundary(target) {
            target -= 1;
        }
        self.cursor = target;
    }

    #[inline]
    fn after(&self) -> &'a str {
        &self.string[self.cursor..]
    }
}

/// What can be eaten. The parameter only keeps the implementations apart.
pub trait Pattern<T> {
    /// The length of the match at the start of `rest`, if there is one. Never
    /// zero for the patterns that are eaten repeatedly.
    fn matches(&mut self, rest: &str) -> Option<usize>;
}

/// Marks closures that take a character.
pub struct ByValue;

/// Marks functions that take a reference to a character.
pub struct ByReference;

#[inline]
fn first(rest: &str, test: impl FnOnce(char) -> bool) -> Option<usize> {
    rest.chars().next().filter(|&c| test(c)).map(char::len_utf8)
}

impl Pattern<()> for char {
    #[inline]
    fn matches(&mut self, rest: &str) -> Option<usize> {
        first(rest, |c| c == *self)
    }
}

impl Pattern<()> for &str {
    #[inline]
    fn matches(&mut self, rest: &str) -> Option<usize> {
        rest.starts_with(*self).then_some(self.len())
    }
}

impl<const N: usize> Pattern<()> for [char; N] {
    #[inline]
    fn matches(&mut self, rest: &str) -> Option<usize> {
        first(rest, |c| self.contains(&c))
    }
}

impl<F: FnMut(char) -> bool> Pattern<ByValue> for F {
    #[inline]
    fn matches(&mut self, rest: &str) -> Option<usize> {
        first(rest, self)
    }
}

impl<F: FnMut(&char) -> bool> Pattern<ByReference> for F {
    #[inline]
    fn matches(&mut self, rest: &str) -> Option<usize> {
        first(rest, |c| self(&c))
    }
}
