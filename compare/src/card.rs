//! `compare card LEAVES CHANGES SEED`: a full card's worth. A row of so many leaves takes so many changes in batches, once by nomt's unchanged
//! updater and once by the library, each on a row of its own, in the turns of nomt's `run_worker`. After each batch both rows must be
//! the same, and every key of a plain ordered map must be found in the library's.

mod batch;
mod row;
mod worker;

use crate::oracle::updater::Updater;
use crate::ours::pages::LentPage;
use crate::ours::side::Library;
use crate::plain::page::Record;
use crate::random::keep_freed_memory;
use crate::rng::Rng;
use crate::vectors::calls::Change;
use crate::{hex, oracle::Key};
use batch::Batch;
use row::Row;
use std::collections::BTreeMap;
use std::process::ExitCode;
use std::time::Instant;
use worker::{Made, Worker};

/// Says in words what went wrong.
type Checked<T> = Result<T, String>;

/// What the rows are to hold.
pub type Records = BTreeMap<Key, Record>;

pub fn run(leaves: usize, changes: u64, seed: u64) -> ExitCode {
    keep_freed_memory();
    let start = Instant::now();
    let mut card = Card::default();
    let outcome = card.fill(leaves, changes, seed);
    let seconds = start.elapsed().as_secs();
    let Counts {
        changes,
        batches,
        works,
        next_bases,
        merge_requests,
        removals,
        lookups,
    } = card.counts;
    print!("seed {seed}: {batches} batches, {works} works, {next_bases} next bases, ");
    println!("{merge_requests} merge requests, {removals} cutoff removals, {seconds} s");
    let (leaves, records) = (card.ours.len(), card.records.len());
    print!("{changes} changes, {leaves} leaves, {records} records, {lookups} lookups: ");
    match outcome {
        Ok(()) => {
            println!("passed");
            ExitCode::SUCCESS
        }
        Err(why) => {
            println!("failed, in batch {}: {why}", batches + 1);
            ExitCode::FAILURE
        }
    }
}

#[derive(Default)]
struct Card {
    rust: Row,
    ours: Row,
    records: Records,
    counts: Counts,
}

#[derive(Default)]
struct Counts {
    changes: u64,
    batches: u64,
    works: u64,
    next_bases: u64,
    merge_requests: u64,
    removals: u64,
    lookups: u64,
}

impl Counts {
    fn add(&mut self, made: &Made) {
        self.works += 1;
        self.next_bases += made.next_bases;
        self.merge_requests += made.merge_requests;
        self.removals += made.removals;
    }
}

impl Card {
    /// The row grows to somewhat more leaves than asked for, and is then kept between that and somewhat less.
    fn fill(&mut self, leaves: usize, changes: u64, seed: u64) -> Checked<()> {
        let mut rng = Rng::new(seed);
        let mut grows = true;
        while self.counts.changes < changes {
            let batch = batch::make(&mut rng, &self.ours, &self.records, grows);
            self.change(&batch)?;
            self.counts.batches += 1;
            grows = match self.ours.len() {
                few if few < leaves + leaves / 16 => true,
                many if many > leaves + leaves / 4 => false,
                _ => grows,
            };
        }
        Ok(())
    }

    /// A batch on both rows, one worker after the other: the rightmost first, so that its leaves are there when its left neighbour, at the
    /// end of its own, needs one to merge with.
    fn change(&mut self, batch: &Batch) -> Checked<()> {
        for (changes, high) in batch.shares().rev() {
            let rust = Worker::new(Updater::new(None, None), &self.rust, high);
            let rust = rust
                .run(changes)
                .map_err(|why| format!("the Rust, {why}"))?;
            let ours = Worker::new(Library::default(), &self.ours, high);
            let ours = ours.run(changes).map_err(|why| format!("ours, {why}"))?;
            same_made(&rust, &ours)?;
            self.counts.add(&ours);
            self.rust.apply(rust)?;
            self.ours.apply(ours)?;
        }
        self.rust.lower_first();
        self.ours.lower_first();
        self.rust.same(&self.ours)?;
        for (key, change) in batch.changes() {
            self.record(*key, change);
        }
        self.look_up_all()?;
        self.look_up_deleted(batch)
    }

    fn record(&mut self, key: Key, change: &Change) {
        self.counts.changes += 1;
        self.records.remove(&key);
        if let Change::Put { value, flag } = change {
            let (value, flag) = (value.clone(), *flag);
            self.records.insert(key, Record { key, value, flag });
        }
    }

    /// Every record is found by separator and `leaf_page_get`, and the leaves have no others.
    fn look_up_all(&mut self) -> Checked<()> {
        let mut held = 0;
        for (separator, page) in self.ours.leaves() {
            let lent = LentPage::new(page);
            let behind = self.records.range(separator..);
            let next = self.ours.after(&separator);
            for (key, record) in behind.take_while(|(key, _)| next.is_none_or(|next| **key < next))
            {
                found(&lent, page, record).map_err(|why| format!("{}: {why}", hex::plain(key)))?;
                self.counts.lookups += 1;
            }
            held += crate::pages::count(page);
        }
        match self.records.len() {
            due if due == held => Ok(()),
            due => Err(format!("{held} records in the leaves, {due} due")),
        }
    }

    /// What the batch deleted is absent.
    fn look_up_deleted(&mut self, batch: &Batch) -> Checked<()> {
        for (key, change) in batch.changes() {
            if let (Change::Delete, Some((_, page))) = (change, self.ours.leaf_of(key)) {
                let reply = LentPage::new(page).get(key).map_err(|damage| damage.0)?;
                self.counts.lookups += 1;
                if (reply.refusal, reply.absent) != (0, 1) {
                    return Err(format!("{}: deleted, and {reply:?}", hex::plain(key)));
                }
            }
        }
        Ok(())
    }
}

fn same_made(rust: &Made, ours: &Made) -> Checked<()> {
    if rust == ours {
        return Ok(());
    }
    let differ = match () {
        _ if rust.tickets != ours.tickets => "tickets",
        _ if rust.leaves != ours.leaves => "pages",
        _ if rust.dropped != ours.dropped => "dropped overflow cells",
        _ => "leaves taken or merge requests",
    };
    Err(format!("{differ} of a worker differ"))
}

fn found(lent: &LentPage, page: &[u8], record: &Record) -> Checked<()> {
    let reply = lent.get(&record.key).map_err(|damage| damage.0)?;
    let value = page
        .get(reply.offset..)
        .and_then(|from| from.get(..reply.len));
    let right = (reply.refusal, reply.absent) == (0, 0) && (reply.flag != 0) == record.flag;
    if right && value == Some(&record.value[..]) {
        return Ok(());
    }
    Err(format!("{reply:?} in place of {record:?}"))
}

#[cfg(test)]
mod tests {
    use super::*;

    /// A small card meets every turn that a work can take.
    #[test]
    fn a_small_card_meets_every_call() {
        let mut card = Card::default();
        assert_eq!(card.fill(60, 15_000, 1), Ok(()));
        let Counts {
            merge_requests,
            removals,
            ..
        } = card.counts;
        assert!(card.ours.len() > 30 && merge_requests > 100 && removals > 3);
    }
}
