//! The chain's one-way function, by its number.

use crate::{aes, md5, Refusal, Value};

/// A value as both functions take it: four words, low byte first.
pub type Words = [u32; 4];

#[derive(Clone, Copy)]
pub enum Function {
    Md5,
    Aes,
}

impl Function {
    /// The function of this number, or refusal 1.
    pub fn of(number: u32) -> Result<Function, Refusal> {
        match number {
            0 => Ok(Function::Md5),
            1 => Ok(Function::Aes),
            _ => Err(Refusal::UnknownFunction),
        }
    }

    /// The element after this one.
    #[inline]
    pub fn next(self, value: Words) -> Words {
        match self {
            Function::Md5 => md5::of_value(value),
            Function::Aes => aes::of_zero(value),
        }
    }

    /// The element so many steps after this one.
    #[inline]
    pub fn on(self, value: Words, steps: u32) -> Words {
        (0..steps).fold(value, |value, _| self.next(value))
    }

    /// The same, of bytes.
    pub fn walk(self, value: &Value, steps: u32) -> Value {
        bytes(self.on(words(value), steps))
    }
}

/// The four words of a value.
#[inline]
pub fn words(value: &Value) -> Words {
    let (words, _) = value.as_chunks();
    [0, 1, 2, 3].map(|i| u32::from_le_bytes(words[i]))
}

/// The value of four words.
#[inline]
pub fn bytes(words: Words) -> Value {
    let mut value = [0; 16];
    for (bytes, word) in value.as_chunks_mut().0.iter_mut().zip(words) {
        *bytes = word.to_le_bytes();
    }
    value
}
