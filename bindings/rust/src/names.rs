use std::collections::HashMap;

/// Numbers for names: terms name variables and aliases by 16-bit numbers, a written policy by words.
///
/// The same word always gets the same number. Numbers count from 0.
///
/// ```
/// use netkat::{Expr, Names};
///
/// let mut names = Names::new();
/// let guest = names.intern("guest");
/// let policy = Expr::let_in(guest, Expr::test(0, true), Expr::var(names.intern("guest")));
///
/// assert_eq!(guest, 0);
/// assert_eq!(names.text(guest), Some("guest"));
/// assert_eq!(policy.check(), Ok(true));
/// ```
#[derive(Clone, Debug, Default)]
pub struct Names {
    numbers: HashMap<String, u16>,
    texts: Vec<String>,
}

impl Names {
    /// No names yet.
    pub fn new() -> Self {
        Self::default()
    }

    /// The number of `text`, a new one if it has none.
    ///
    /// # Panics
    ///
    /// If `text` is new and all 65,536 numbers are given out; see [`Names::try_intern`].
    pub fn intern(&mut self, text: &str) -> u16 {
        self.try_intern(text).expect("more than 65,536 names")
    }

    /// The number of `text`, a new one if it has none; `None` if it needs a new one and all 65,536 are given out.
    pub fn try_intern(&mut self, text: &str) -> Option<u16> {
        if let Some(number) = self.number(text) {
            return Some(number);
        }
        let number = u16::try_from(self.texts.len()).ok()?;
        self.numbers.insert(text.to_owned(), number);
        self.texts.push(text.to_owned());
        Some(number)
    }

    /// The number of `text`, if it has one.
    pub fn number(&self, text: &str) -> Option<u16> {
        self.numbers.get(text).copied()
    }

    /// The text that has this number, if there is one.
    pub fn text(&self, number: u16) -> Option<&str> {
        self.texts.get(usize::from(number)).map(String::as_str)
    }

    /// How many names have a number.
    pub fn len(&self) -> usize {
        self.texts.len()
    }

    /// Whether no name has a number.
    pub fn is_empty(&self) -> bool {
        self.texts.is_empty()
    }
}
