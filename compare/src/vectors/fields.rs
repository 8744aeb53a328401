//! The words of a line: `name=value` fields in any order, and bare words.

use crate::hex;
use crate::oracle::Key;

/// The words of a line that were not taken yet.
pub struct Fields<'a> {
    left: Vec<&'a str>,
}

impl<'a> Fields<'a> {
    /// The line's first word, and the others. Words are separated by single spaces.
    pub fn split(line: &'a str) -> (&'a str, Self) {
        let (first, rest) = match line.split_once(' ') {
            Some((first, rest)) => (first, rest.split(' ').collect()),
            None => (line, Vec::new()),
        };
        (first, Fields { left: rest })
    }

    /// Takes a bare word, if it is there.
    pub fn word(&mut self, word: &str) -> bool {
        let place = self.left.iter().position(|left| *left == word);
        place.map(|at| self.left.remove(at)).is_some()
    }

    /// Takes the next word, whatever it is.
    pub fn next(&mut self) -> Result<&'a str, String> {
        if self.left.is_empty() {
            return Err("a word is missing".to_string());
        }
        Ok(self.left.remove(0))
    }

    pub fn has(&self, name: &str) -> bool {
        self.left.iter().any(|word| value_of(word, name).is_some())
    }

    /// Takes the value of a field that may be absent.
    fn find(&mut self, name: &str) -> Option<&'a str> {
        let found = |word: &&str| value_of(word, name).is_some();
        let place = self.left.iter().position(found)?;
        value_of(self.left.remove(place), name)
    }

    pub fn text(&mut self, name: &str) -> Result<&'a str, String> {
        let missing = || format!("no field `{name}=`");
        self.find(name).ok_or_else(missing)
    }

    pub fn number(&mut self, name: &str) -> Result<usize, String> {
        hex::read_number(self.text(name)?)
    }

    pub fn number_if_given(&mut self, name: &str) -> Result<Option<usize>, String> {
        self.find(name).map(hex::read_number).transpose()
    }

    pub fn bytes(&mut self, name: &str) -> Result<Vec<u8>, String> {
        hex::read(self.text(name)?)
    }

    pub fn bytes_if_given(&mut self, name: &str) -> Result<Option<Vec<u8>>, String> {
        self.find(name).map(hex::read).transpose()
    }

    pub fn flag(&mut self, name: &str) -> Result<bool, String> {
        read_flag(self.text(name)?)
    }

    pub fn key(&mut self, name: &str) -> Result<Key, String> {
        read_key(self.text(name)?)
    }

    /// A key, or the word `none`.
    pub fn key_or_none(&mut self, name: &str) -> Result<Option<Key>, String> {
        match self.text(name)? {
            "none" => Ok(None),
            key => read_key(key).map(Some),
        }
    }

    /// Every word must have been taken: an unknown, a repeated or an empty one is left.
    pub fn end(self) -> Result<(), String> {
        match self.left.first() {
            None => Ok(()),
            Some(word) => Err(format!("`{word}` does not belong here")),
        }
    }
}

fn value_of<'a>(word: &'a str, name: &str) -> Option<&'a str> {
    word.strip_prefix(name)?.strip_prefix('=')
}

pub fn read_key(text: &str) -> Result<Key, String> {
    let bytes = hex::read(text)?;
    let wrong = |bytes: Vec<u8>| format!("a key of {} bytes", bytes.len());
    bytes.try_into().map_err(wrong)
}

pub fn read_flag(text: &str) -> Result<bool, String> {
    match text {
        "0" => Ok(false),
        "1" => Ok(true),
        _ => Err(format!("`{text}` is not a flag, 0 or 1")),
    }
}
