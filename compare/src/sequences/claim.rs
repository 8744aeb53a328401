//! The tally of demand 3: fed the accepted calls alone, it must be the leaves given so far and then the pending records.

use crate::oracle::Key;
use crate::plain::page::{records, Record};
use crate::plain::pending;
use crate::plain::side::Plain;
use crate::vectors::answers::Answer;
use crate::vectors::calls::{Call, Change};
use std::collections::BTreeMap;

#[derive(Clone, Default)]
pub struct Claim {
    records: BTreeMap<Key, Record>,
    given: Vec<Record>,
}

impl Claim {
    /// An accepted call and its answer.
    pub fn feed(&mut self, call: &Call, answer: &Answer) {
        match call {
            Call::Open { base, .. } => {
                *self = Claim::default();
                self.add(base.as_ref().map_or(Vec::new(), |base| records(&base.page)));
            }
            Call::Next { base, .. } => self.add(records(&base.page)),
            Call::Ingest { key, change, .. } => {
                self.records.remove(key);
                if let Change::Put { value, flag } = change {
                    let (key, value, flag) = (*key, value.clone(), *flag);
                    self.add(vec![Record { key, value, flag }]);
                }
            }
            _ => {}
        }
        if let Answer::Leaves { pages, .. } = answer {
            self.given
                .extend(pages.iter().flat_map(|page| records(page)));
        }
    }

    fn add(&mut self, records: Vec<Record>) {
        let keyed = records.into_iter().map(|record| (record.key, record));
        self.records.extend(keyed);
    }

    /// Count and value bytes of the records that are not given yet.
    pub fn pending(&self) -> (usize, usize) {
        let given: usize = self.given.iter().map(|record| record.value.len()).sum();
        let all: usize = self.records.values().map(|record| record.value.len()).sum();
        (
            self.records.len().saturating_sub(self.given.len()),
            all.saturating_sub(given),
        )
    }

    /// The length of the value that a key has now.
    pub fn length_of(&self, key: &Key) -> Option<usize> {
        self.records.get(key).map(|record| record.value.len())
    }

    /// Whether the tally is the leaves given and what is pending, in order.
    pub fn holds(&self, plain: &Plain) -> bool {
        let pending = pending::records(&plain.state, &plain.page);
        self.records.values().eq(self.given.iter().chain(&pending))
    }
}
