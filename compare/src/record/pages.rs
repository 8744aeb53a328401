//! The files `pages` and `builds`.
//!
//! `pages`: records of 5,969 bytes, a page, its refusal, and questions with the Rust's answers.
//!
//! | bytes | what |
//! |---|---|
//! | 0 to 4095 | the page |
//! | 4096 | the page's refusal, 0 for a good one |
//! | 4097 to 5968 | 24 questions of 78 bytes |
//!
//! A question; numbers have two bytes, low byte first, and what a call doesn't take or answer is zero:
//!
//! | bytes | what |
//! |---|---|
//! | 0 | the call: 0 key, 1 value, 2 values_size, 3 get |
//! | 1, 2 and 3, 4 | index or from, and to |
//! | 5 to 36 | the key that `get` looks for |
//! | 37, 38, 39 | the answer: refusal; 1 for absent; flag |
//! | 40, 41 and 42, 43 | offset, and length or sum of lengths |
//! | 44, 45 | the position at which an absent key would stand |
//! | 46 to 77 | the key that was read |
//!
//! `builds`: records of 8,198 bytes: a good page; three numbers, from, mid and to; and the page that the Rust builds of the
//! records from..to, those before mid by cells, the others as a chunk, its gap cleared.

use super::SEED;
use crate::oracle::beatree::leaf::node::LeafNode;
use crate::oracle::io::PagePool;
use crate::oracle::Key;
use crate::ours::pages::NO_SUCH_INDEX;
use crate::pages::{build, made, node_of, plain_check, position};
use crate::rng::Rng;

pub const RECORD: usize = 4096 + 1 + QUESTIONS * QUESTION;
pub const BUILD_RECORD: usize = 4096 + 6 + 4096;
const QUESTIONS: usize = 24;
const QUESTION: usize = 78;

/// The pages to ask of: good ones of several counts, and a damaged copy of some.
pub fn page_records() -> Vec<u8> {
    let mut rng = Rng::new(SEED);
    let mut bytes = Vec::new();
    for n in [0, 1, 2, 3, 17, 60, 119, 120] {
        for filling in made::FILLINGS {
            let page = made::page(&mut rng, n, filling);
            push_page(&mut bytes, &page, &mut rng);
        }
        let page = made::page(&mut rng, n, made::Filling::Mixed);
        let copies = made::damaged(&mut rng, &page);
        let copies = copies.iter().filter(|copy| copy.len() == page.len());
        if let Some(bad) = copies.clone().find(|copy| plain_check(copy) > 2) {
            push_page(&mut bytes, bad, &mut rng);
        }
    }
    bytes
}

fn push_page(bytes: &mut Vec<u8>, page: &[u8], rng: &mut Rng) {
    let pool = PagePool::new();
    let node = node_of(&pool, page);
    let refusal = plain_check(page);
    bytes.extend_from_slice(page);
    bytes.push(refusal);
    for question in 0..QUESTIONS {
        let mut asked = Question::new(question % 4, &node, rng);
        if refusal == 0 {
            asked.answer_by(&node);
        } else {
            asked.refusal = refusal;
        }
        asked.push(bytes);
    }
}

#[derive(Default)]
struct Question {
    call: u8,
    from: usize,
    to: usize,
    sought: Key,
    refusal: u8,
    absent: bool,
    flag: bool,
    offset: usize,
    len: usize,
    position: usize,
    read: Key,
}

impl Question {
    /// Indexes up to one past the last record; keys of the page and keys beside them.
    fn new(call: usize, node: &LeafNode, rng: &mut Rng) -> Self {
        let n = node.n().min(120);
        let mut question = Question {
            call: call as u8,
            ..Question::default()
        };
        match call {
            0 | 1 => question.from = rng.between(0, n),
            2 => {
                question.from = rng.between(0, n);
                question.to = rng.between(0, n + 1);
            }
            _ => question.sought = sought(node, n, rng),
        }
        question
    }

    fn answer_by(&mut self, node: &LeafNode) {
        let n = node.n();
        match self.call {
            0 if self.from < n => self.read = node.key(self.from),
            1 if self.from < n => self.found(node, node.value(self.from)),
            2 if self.from < self.to && self.to <= n => {
                self.len = node.values_size(self.from, self.to)
            }
            3 => match node.get(&self.sought) {
                Some(value) => self.found(node, value),
                None => {
                    self.absent = true;
                    self.position = position(node, &self.sought);
                }
            },
            _ => self.refusal = NO_SUCH_INDEX,
        }
    }

    fn found(&mut self, node: &LeafNode, value: (&[u8], bool)) {
        self.offset = value.0.as_ptr() as usize - node.inner.as_ptr() as usize;
        self.len = value.0.len();
        self.flag = value.1;
    }

    fn push(&self, bytes: &mut Vec<u8>) {
        bytes.push(self.call);
        push_number(bytes, self.from);
        push_number(bytes, self.to);
        bytes.extend_from_slice(&self.sought);
        bytes.extend([self.refusal, self.absent.into(), self.flag.into()]);
        push_number(bytes, self.offset);
        push_number(bytes, self.len);
        push_number(bytes, self.position);
        bytes.extend_from_slice(&self.read);
    }
}

fn sought(node: &LeafNode, n: usize, rng: &mut Rng) -> Key {
    if n == 0 {
        return rng.key();
    }
    let key = node.key(rng.between(0, n - 1));
    match rng.between(0, 4) {
        0 => made::below(&key),
        1 => made::above(&key),
        2 => rng.key(),
        _ => key,
    }
}

fn push_number(bytes: &mut Vec<u8>, number: usize) {
    bytes.extend((number as u16).to_le_bytes());
}

pub fn build_records() -> Vec<u8> {
    let pool = PagePool::new();
    let mut rng = Rng::new(SEED);
    let mut bytes = Vec::new();
    for n in [0, 1, 3, 17, 60, 120] {
        for filling in [made::Filling::Mixed, made::Filling::Full] {
            let page = made::page(&mut rng, n, filling);
            let mut range = [0; 3].map(|_: usize| rng.between(0, n));
            range.sort();
            let node = node_of(&pool, &page);
            bytes.extend_from_slice(&page);
            for number in range {
                push_number(&mut bytes, number);
            }
            bytes.extend(build(&pool, &node, range));
        }
    }
    bytes
}
