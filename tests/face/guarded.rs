//! Memory that is lent between guard words.
use std::fmt::{Debug, Formatter, Result as Written};

const GUARD: usize = 8;

#[derive(Clone, PartialEq, Eq)]
pub struct Guarded<T> {
    words: Vec<T>,
    guard: T,
}

/// Prints what is lent alone.
impl<T: Copy + PartialEq + Debug> Debug for Guarded<T> {
    fn fmt(&self, f: &mut Formatter) -> Written {
        self.data().fmt(f)
    }
}

impl<T: Copy + PartialEq> Guarded<T> {
    pub fn new(data: &[T], guard: T) -> Guarded<T> {
        let mut guarded = Guarded { words: Vec::with_capacity(data.len() + 2 * GUARD), guard };
        guarded.fill(data);
        guarded
    }
    /// Puts other data between the guard words.
    pub fn fill(&mut self, data: &[T]) {
        self.words.clear();
        self.words.extend([self.guard; GUARD]);
        self.words.extend(data);
        self.words.extend([self.guard; GUARD]);
    }
    pub fn data(&self) -> &[T] {
        &self.words[GUARD..self.words.len() - GUARD]
    }
    pub fn data_mut(&mut self) -> &mut [T] {
        let end = self.words.len() - GUARD;
        &mut self.words[GUARD..end]
    }
    pub fn kept(&self) -> bool {
        let end = self.words.len() - GUARD;
        self.words[..GUARD].iter().chain(&self.words[end..]).all(|w| *w == self.guard)
    }
    /// What a call takes: pointer and length. For length 0 any pointer will do, and `null` gives the null pointer.
    pub fn lend(&mut self, null: bool) -> (*mut T, usize) {
        let data = self.data_mut();
        if null && data.is_empty() { (std::ptr::null_mut(), 0) } else { (data.as_mut_ptr(), data.len()) }
    }
}

/// Why a call is wrong, where what it left is not what it should have.
pub fn same<T: PartialEq + Debug>(what: &str, got: &T, expected: &T) -> Result<(), String> {
    if got == expected { Ok(()) } else { Err(format!("{what}: got {got:?}, expected {expected:?}")) }
}
