//! The Rust's `LeafUpdater` driven by recorded or made-up calls, its answers in the same form as the other sides'. It
//! refuses nothing, so only calls that document 01 accepts may be given to it.

use super::beatree::leaf::node::{body_size, LeafNode};
use super::beatree::ops::update::leaf_updater::inside::{self, Op};
use super::beatree::ops::update::leaf_updater::{
    BaseLeaf, DigestResult, HandleNewLeaf, LeafUpdater,
};
use super::io::PagePool;
use super::Key;
use crate::pages::{clear_gap, node_of};
use crate::plain::work::{State, INSERT};
use crate::vectors::answers::{Answer, Entry, Holder, Pending};
use crate::vectors::calls::{Base, Call, Change};
use crate::vectors::{Outcome, Side};
use std::hint::black_box;
use std::sync::Arc;

pub struct Updater {
    pool: PagePool,
    inner: LeafUpdater,
    /// The base's node, which the updater shares.
    node: Option<Arc<LeafNode>>,
}

/// Gives each new leaf to a function.
struct Each<F>(F);

impl<F: FnMut(Key, LeafNode, Option<Key>)> HandleNewLeaf for Each<F> {
    fn handle_new_leaf(
        &mut self,
        separator: Key,
        node: LeafNode,
        cutoff: Option<Key>,
    ) -> std::io::Result<()> {
        (self.0)(separator, node, cutoff);
        Ok(())
    }
}

impl Side for Updater {
    fn run(&mut self, call: &Call) -> Outcome {
        Outcome::Answered(self.answer(call))
    }
}

impl Updater {
    pub fn new(base: Option<&Base>, cutoff: Option<Key>) -> Self {
        let pool = PagePool::new();
        let node = base.map(|base| Arc::new(node_of(&pool, &base.page)));
        let leaf = base.zip(node.clone());
        let leaf = leaf.map(|(base, node)| BaseLeaf::new(node, base.separator));
        Updater {
            inner: LeafUpdater::new(pool.clone(), leaf, cutoff),
            pool,
            node,
        }
    }

    /// The Rust's updater with the fields of a sound work, however it came about.
    pub fn of(state: &State, page: &[u8]) -> Self {
        let work = &state.work;
        let pool = PagePool::new();
        let regarded = work.regards_page().then_some(page);
        let node = regarded.map(|page| Arc::new(node_of(&pool, page)));
        // where the page is ignored, the Rust still asks its used-up base for the separator
        let shown = node
            .clone()
            .unwrap_or_else(|| Arc::new(node_of(&pool, &[0; 4096])));
        let base = BaseLeaf::new(shown, work.latest);
        let ops = state.used_entries().iter().map(|entry| match entry.kind {
            INSERT => {
                let value = &state.store[entry.from..entry.to];
                Op::Insert(entry.key, value, entry.flag != 0)
            }
            _ => Op::Chunk(entry.from, entry.to, entry.sum),
        });
        let overriding = (work.over != 0).then_some(work.overriding);
        let base = Some((base, work.low));
        let inner = inside::amidst(pool.clone(), base, work.cutoff(), overriding, ops.collect());
        Updater { pool, inner, node }
    }

    /// The answer to a call that document 01 accepts.
    pub fn answer(&mut self, call: &Call) -> Answer {
        match call {
            Call::Open { base, cutoff, .. } => {
                *self = Updater::new(base.as_ref(), *cutoff);
                Answer::Accepted
            }
            Call::Ingest { key, change, .. } => self.ingest(*key, change),
            Call::Digest { .. } => self.digest(),
            Call::Next { base, cutoff, .. } => self.reset_base(base, *cutoff),
            Call::Uncut { .. } => {
                self.inner.remove_cutoff();
                Answer::Accepted
            }
            Call::Scope { key } => Answer::Truth(self.inner.is_in_scope(key)),
            Call::Separator => Answer::Key(self.inner.separator()),
            Call::Dump => self.dump(),
            _ => unreachable!("no call on the updater: {}", call.name()),
        }
    }

    fn ingest(&mut self, key: Key, change: &Change) -> Answer {
        let (value, flag) = match change {
            Change::Put { value, flag } => (Some(value.clone()), *flag),
            Change::Delete => (None, false),
        };
        let page = self.node.as_ref().map(|node| node.inner.as_ptr() as usize);
        let mut report = None;
        self.inner.ingest(key, value, flag, |cell| {
            let page = page.expect("a cell is in a page");
            assert_eq!(report, None, "a call drops one record at most");
            report = Some((cell.as_ptr() as usize - page, cell.len()));
        });
        Answer::Report(report)
    }

    // For timing: the page isn't copied, and leaves are only counted.

    /// The base's node, to be shared.
    pub fn node(&self) -> Option<Arc<LeafNode>> {
        self.node.clone()
    }

    #[inline(never)]
    pub fn open_bare(&self, separator: Key, cutoff: Option<Key>) -> LeafUpdater {
        let node = self.node.clone();
        let leaf = node.map(|node| BaseLeaf::new(node, separator));
        LeafUpdater::new(self.pool.clone(), leaf, cutoff)
    }

    #[inline(never)]
    pub fn reset_base_bare(&mut self, node: &Arc<LeafNode>, separator: Key, cutoff: Option<Key>) {
        let leaf = BaseLeaf::new(node.clone(), separator);
        self.inner.reset_base(Some(leaf), cutoff);
    }

    #[inline(never)]
    pub fn remove_cutoff_bare(&mut self) {
        self.inner.remove_cutoff();
    }

    #[inline(never)]
    pub fn is_in_scope_bare(&self, key: &Key) -> bool {
        self.inner.is_in_scope(key)
    }

    #[inline(never)]
    pub fn separator_bare(&self) -> Key {
        self.inner.separator()
    }

    pub fn digest_bare(&mut self) -> usize {
        let mut leaves = 0;
        let result = self.inner.digest(&mut Each(|separator, node, cutoff| {
            black_box((separator, node, cutoff));
            leaves += 1;
        }));
        black_box(result.is_ok());
        leaves
    }

    /// The leaves as pages with a cleared gap and packed tickets.
    fn digest(&mut self) -> Answer {
        let asked = self.body().div_ceil(2047);
        let (mut pages, mut tickets) = (Vec::new(), Vec::new());
        let result = self.inner.digest(&mut Each(
            |separator, node: LeafNode, cutoff: Option<Key>| {
                let mut page = node.inner.to_vec();
                clear_gap(&mut page);
                pages.push(page);
                tickets.push(if cutoff.is_some() { 1 } else { 2 });
                tickets.extend(separator);
                tickets.extend(cutoff.iter().flatten());
            },
        ));
        let wait = match result.expect("writing into memory does not fail") {
            DigestResult::NeedsMerge(cutoff) => Some(cutoff),
            DigestResult::Finished => None,
        };
        Answer::Leaves {
            pages,
            tickets,
            wait,
            asked,
        }
    }

    fn reset_base(&mut self, base: &Base, cutoff: Option<Key>) -> Answer {
        let node = Arc::new(node_of(&self.pool, &base.page));
        let leaf = BaseLeaf::new(node.clone(), base.separator);
        self.inner.reset_base(Some(leaf), cutoff);
        self.node = Some(node);
        Answer::Accepted
    }

    /// Body size of what is pending: the listed records, and the base's rest.
    fn body(&self) -> usize {
        let (mut n, mut bytes) = self.gauge();
        if let (Some(node), Some(low)) = (&self.node, self.low()) {
            if low < node.n() {
                n += node.n() - low;
                bytes += node.values_size(low, node.n());
            }
        }
        body_size(n, bytes)
    }

    /// Entries as document 01 places them, and the pending records that they and the base's rest stand for.
    fn dump(&self) -> Answer {
        let (mut entries, mut pending) = (Vec::new(), Vec::new());
        let mut end = 0;
        for op in inside::ops(&self.inner) {
            match op {
                Op::Insert(key, value, flag) => {
                    let (offset, length) = (end, value.len());
                    end += length;
                    entries.push(Entry::Insert {
                        offset,
                        length,
                        flag,
                        key,
                    });
                    pending.push(Pending {
                        holder: Holder::Store,
                        offset,
                        length,
                        flag,
                        key,
                    });
                }
                Op::Chunk(from, to, values) => {
                    entries.push(Entry::Chunk { from, to, values });
                    pending.extend((from..to).map(|i| self.of_base(i)));
                }
            }
        }
        let n = self.node.as_ref().map_or(0, |node| node.n());
        pending.extend((self.low().unwrap_or(n)..n).map(|i| self.of_base(i)));
        Answer::Dump { entries, pending }
    }

    fn of_base(&self, i: usize) -> Pending {
        let node = self.node.as_ref().expect("a base record is in a base");
        let (value, flag) = node.value(i);
        Pending {
            holder: Holder::Page,
            offset: value.as_ptr() as usize - node.inner.as_ptr() as usize,
            length: value.len(),
            flag,
            key: node.key(i),
        }
    }

    /// The values of the listed inserts, in list order.
    pub fn insert_values(&self) -> Vec<u8> {
        let ops = inside::ops(&self.inner);
        let values = ops.iter().filter_map(|op| match op {
            Op::Insert(_, value, _) => Some(*value),
            Op::Chunk(..) => None,
        });
        values.flatten().copied().collect()
    }

    /// Count and value bytes of the listed records.
    pub fn gauge(&self) -> (usize, usize) {
        inside::gauge(&self.inner)
    }

    pub fn low(&self) -> Option<usize> {
        inside::low(&self.inner)
    }

    pub fn cutoff(&self) -> Option<Key> {
        inside::cutoff(&self.inner)
    }

    pub fn separator_override(&self) -> Option<Key> {
        inside::separator_override(&self.inner)
    }
}
