//! The unchanged Rust of nomt, compiled byte for byte from the folder that NOMT_SRC names (see build.rs).
//!
//! Only what its files lean on stands here: the key type, two type names of the branch node, the page size,
//! a page pool, and for overflow.rs an allocator and a store in memory. The modules bear the Rust's own names and nesting, because its `use` lines ask for them.

pub mod overflow;
pub mod updater;

use beatree::ops::bit_ops;
pub use beatree::Key;
use std::panic;

/// `bit_ops::separate`. Never inlined, so that in timings it is a call as ours is.
#[inline(never)]
pub fn separate(a: &Key, b: &Key) -> Key {
    bit_ops::separate(a, b)
}

/// `bit_ops::prefix_len`, never inlined either.
#[inline(never)]
pub fn prefix_len(a: &Key, b: &Key) -> usize {
    bit_ops::prefix_len(a, b)
}

/// Whether the Rust panics on `separate` of these keys. The panic's own message is kept quiet.
pub fn separate_panics(a: &Key, b: &Key) -> bool {
    let hook = panic::take_hook();
    panic::set_hook(Box::new(|_| {}));
    let outcome = panic::catch_unwind(|| separate(a, b));
    panic::set_hook(hook);
    outcome.is_err()
}

#[allow(unused, clippy::all)]
pub mod io {
    /// build.rs makes sure that the Rust's io/mod.rs says the same.
    pub const PAGE_SIZE: usize = 4096;

    pub mod page_pool;
    pub mod store;
    pub use page_pool::{FatPage, PagePool};
    pub use store::{IoCommand, IoHandle, IoKind};
}

#[allow(unused, clippy::all)]
pub mod beatree {
    pub type Key = [u8; 32];

    pub use allocator::PageNumber;

    /// Hands out lent numbers, and reads pages of the store.
    pub mod allocator {
        pub use crate::io::store::{PageNumber, StoreReader, SyncAllocator};
    }

    pub mod branch {
        pub mod node {
            pub type RawPrefix<'a> = (&'a [u8], usize);
            pub type RawSeparators<'a> = (&'a [u8], usize, usize);
        }
    }

    pub mod leaf {
        pub mod node {
            include!(concat!(env!("NOMT_SRC"), "/nomt/src/beatree/leaf/node.rs"));
        }
    }

    pub mod ops {
        pub mod bit_ops {
            include!(concat!(
                env!("NOMT_SRC"),
                "/nomt/src/beatree/ops/bit_ops.rs"
            ));
        }

        include!(concat!(env!("OUT_DIR"), "/overflow_module.rs"));

        pub mod update {
            use crate::beatree::leaf::node::LEAF_NODE_BODY_SIZE;

            // The three `const LEAF_` lines of update/mod.rs.
            include!(concat!(env!("OUT_DIR"), "/leaf_limits.rs"));

            pub mod leaf_updater {
                include!(concat!(
                    env!("NOMT_SRC"),
                    "/nomt/src/beatree/ops/update/leaf_updater.rs"
                ));

                /// Reads the updater's private fields; as a child module it may.
                pub mod inside {
                    use super::{BaseLeaf, Key, LeafOp, LeafUpdater, PagePool};

                    /// A listed operation.
                    pub enum Op<'a> {
                        Insert(Key, &'a [u8], bool),
                        /// From, to, bytes of their values.
                        Chunk(usize, usize, usize),
                    }

                    /// An updater in the midst of its work: the base with its passed records, cutoff, override and operations.
                    pub fn amidst(
                        pool: PagePool,
                        base: Option<(BaseLeaf, usize)>,
                        cutoff: Option<Key>,
                        separator_override: Option<Key>,
                        ops: Vec<Op>,
                    ) -> LeafUpdater {
                        let base = base.map(|(base, low)| BaseLeaf { low, ..base });
                        let mut updater = LeafUpdater::new(pool, base, cutoff);
                        updater.separator_override = separator_override;
                        for op in ops {
                            let (op, n, bytes) = match op {
                                Op::Insert(key, value, flag) => {
                                    let op = LeafOp::Insert(key, value.to_vec(), flag);
                                    (op, 1, value.len())
                                }
                                Op::Chunk(from, to, values) => {
                                    (LeafOp::KeepChunk(from, to, values), to - from, values)
                                }
                            };
                            updater.ops.push(op);
                            updater.gauge.ingest(n, bytes);
                        }
                        updater
                    }

                    pub fn ops(updater: &LeafUpdater) -> Vec<Op<'_>> {
                        let op = |op| match op {
                            &LeafOp::Insert(key, ref value, flag) => Op::Insert(key, value, flag),
                            &LeafOp::KeepChunk(from, to, values) => Op::Chunk(from, to, values),
                        };
                        updater.ops.iter().map(op).collect()
                    }

                    pub fn cutoff(updater: &LeafUpdater) -> Option<Key> {
                        updater.cutoff
                    }

                    pub fn separator_override(updater: &LeafUpdater) -> Option<Key> {
                        updater.separator_override
                    }

                    /// How many base records are passed; none without a base.
                    pub fn low(updater: &LeafUpdater) -> Option<usize> {
                        updater.base.as_ref().map(|base| base.low)
                    }

                    /// Count and value bytes of the listed records.
                    pub fn gauge(updater: &LeafUpdater) -> (usize, usize) {
                        (updater.gauge.n, updater.gauge.value_size_sum)
                    }
                }
            }
        }
    }
}

#[cfg(test)]
mod tests {
    use super::beatree::leaf::node::LeafNode;
    use super::beatree::ops::update::leaf_updater::{inside, *};
    use super::io::PagePool;
    use super::Key;

    struct Leaves(Vec<LeafNode>);

    impl HandleNewLeaf for Leaves {
        fn handle_new_leaf(
            &mut self,
            _: Key,
            node: LeafNode,
            _: Option<Key>,
        ) -> std::io::Result<()> {
            self.0.push(node);
            Ok(())
        }
    }

    /// Document 01's trial "One empty value: ... flagged, 00 90": the tree not only compiles, it runs.
    #[test]
    fn one_empty_flagged_value() {
        let mut updater = LeafUpdater::new(PagePool::new(), None, None);
        updater.ingest([7; 32], Some(Vec::new()), true, |_| {});
        assert_eq!(inside::gauge(&updater), (1, 0));
        assert_eq!(inside::low(&updater), None);
        let mut leaves = Leaves(Vec::new());
        let result = updater.digest(&mut leaves);
        assert!(matches!(result, Ok(DigestResult::Finished)));
        let page = &leaves.0[0].inner;
        assert_eq!((leaves.0.len(), page.len()), (1, 4096));
        assert_eq!(
            (&page[..2], &page[34..36]),
            (&[1, 0][..], &[0x00, 0x90][..])
        );
        // The gap holds what the pool's page held.
        assert_ne!(page[36], 0);
    }
}
