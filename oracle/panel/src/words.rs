//! A line's words, as BENCH_PANEL.md says.
use crate::hex;

/// Why a line has no answer here: it is bad, or what it asks lies outside the domain.
pub type Outside = String;

pub struct Words<'a>(pub Vec<&'a str>);

impl<'a> Words<'a> {
    pub fn of(line: &'a str) -> Self {
        Words(line.split(' ').collect())
    }

    /// The line's name and how many words follow it.
    pub fn shape(&self) -> (&'a str, usize) {
        (self.0[0], self.0.len() - 1)
    }

    pub fn number(&self, k: usize) -> Result<u64, Outside> {
        let word = self.0[k];
        if word.is_empty() || !word.bytes().all(|byte| byte.is_ascii_digit()) {
            return Err(format!("{word} is no number"));
        }
        word.parse().map_err(|_| format!("{word} is no number below 2^64"))
    }

    pub fn size(&self, k: usize, most: usize) -> Result<usize, Outside> {
        let number = self.number(k)?;
        if most as u64 >= number { Ok(number as usize) } else { Err(format!("{number} is over {most}")) }
    }

    pub fn bytes(&self, k: usize) -> Result<Vec<u8>, Outside> {
        hex::read(self.0[k]).ok_or_else(|| "no bytes".to_string())
    }
}
