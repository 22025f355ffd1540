//! How often something occurs, as the tables print it.
use crate::load::TOO_MANY;

/// How often each number is answered, of which the last is 22.
#[derive(Clone, Copy, Default)]
pub struct Numbers([usize; TOO_MANY as usize + 1]);

impl Numbers {
    pub fn count(&mut self, number: u8) {
        self.0[number as usize] += 1;
    }
    pub fn print(&self, words: &str) {
        let counts: Vec<String> =
            self.0.iter().enumerate().filter(|(_, n)| **n > 0).map(|(number, n)| format!("{number}: {n}")).collect();
        println!("{words:12} {}", counts.join(", "));
    }
    /// Whether each of these numbers is answered.
    pub fn have(&self, numbers: &[u8]) -> bool {
        numbers.iter().all(|number| self.0[*number as usize] > 0)
    }
}

/// How often each word occurs, in the order in which they first do.
#[derive(Default)]
pub struct Words(Vec<(&'static str, usize)>);

impl Words {
    pub fn count(&mut self, word: &'static str) {
        match self.0.iter_mut().find(|entry| entry.0 == word) {
            Some(entry) => entry.1 += 1,
            None => self.0.push((word, 1)),
        }
    }
    pub fn print(&self, words: &str) {
        let counts: Vec<String> = self.0.iter().map(|(word, n)| format!("{word} {n}")).collect();
        println!("{words:12} {}", counts.join(", "));
    }
}
