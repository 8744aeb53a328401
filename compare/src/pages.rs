//! Leaf pages: made-up good ones, damaged copies, document 01's page rule written plainly, and the comparison of
//! the page calls with nomt's `LeafNode` and `LeafBuilder`.

pub mod made;

use crate::hex;
use crate::lent::Damage;
use crate::oracle::beatree::leaf::node::{LeafBuilder, LeafNode};
use crate::oracle::io::{PagePool, PAGE_SIZE};
use crate::oracle::Key;
use crate::ours::pages::{LeafValue, LentPage, NO_SUCH_INDEX, SHORT_AREA};
use crate::random::{Mismatch, Tally};
use crate::rng::Rng;

/// Document 01's limits of a page.
pub const MOST_RECORDS: usize = 120;
pub const LONGEST_VALUE: usize = 1332;
pub const BODY_LIMIT: usize = 4094;

/// Where pointer i begins.
pub fn pointer(i: usize) -> usize {
    2 + 34 * i
}

pub fn count(page: &[u8]) -> usize {
    u16::from_le_bytes([page[0], page[1]]) as usize
}

pub fn key_at(page: &[u8], i: usize) -> &[u8] {
    &page[pointer(i)..][..32]
}

pub fn offset_at(page: &[u8], i: usize) -> usize {
    let at = pointer(i) + 32;
    (u16::from_le_bytes([page[at], page[at + 1]]) & 0x7fff) as usize
}

/// Document 01's page rule, in its order: the lowest refusal of 1 to 5, or 0.
pub fn plain_check(page: &[u8]) -> u8 {
    if page.len() != PAGE_SIZE {
        return 1;
    }
    let n = count(page);
    if n > MOST_RECORDS {
        return 2;
    }
    let offsets: Vec<usize> = (0..n).map(|i| offset_at(page, i)).collect();
    let first_too_low = offsets.first().is_some_and(|&first| first < pointer(n));
    let falls = offsets.windows(2).any(|pair| pair[1] < pair[0]);
    if first_too_low || falls || offsets.iter().any(|&offset| offset > PAGE_SIZE) {
        return 3;
    }
    let ends = offsets.iter().skip(1).copied().chain([PAGE_SIZE]);
    if offsets
        .iter()
        .zip(ends)
        .any(|(start, end)| end - start > LONGEST_VALUE)
    {
        return 4;
    }
    if (1..n).any(|i| key_at(page, i - 1) >= key_at(page, i)) {
        return 5;
    }
    0
}

/// A round: pages of every count and filling, and damaged copies of each.
pub fn round(rng: &mut Rng, tally: &mut Tally) -> Result<(), Mismatch> {
    let pool = PagePool::new();
    for n in made::COUNTS {
        for filling in made::FILLINGS {
            let page = made::page(rng, n, filling);
            check_page(&pool, &page, rng, tally)?;
            for damaged in made::damaged(rng, &page) {
                check_page(&pool, &damaged, rng, tally)?;
            }
        }
    }
    Ok(())
}

fn check_page(
    pool: &PagePool,
    page: &[u8],
    rng: &mut Rng,
    tally: &mut Tally,
) -> Result<(), Mismatch> {
    let lent = LentPage::new(page);
    let verdict = plain_check(page);
    same("page check", page, "", lent.check(), verdict, tally)?;
    if verdict != 0 {
        return check_refused(&lent, page, verdict, rng, tally);
    }
    let node = node_of(pool, page);
    check_records(&lent, page, &node, tally)?;
    check_gets(&lent, page, &node, rng, tally)?;
    for _ in 0..4 {
        check_range(&lent, page, &node, rng, tally)?;
        check_rebuild(&lent, page, &node, pool, rng, tally)?;
    }
    Ok(())
}

/// The Rust's node over a copy of the page.
pub fn node_of(pool: &PagePool, page: &[u8]) -> LeafNode {
    let mut inner = pool.alloc_fat_page();
    inner.copy_from_slice(page);
    LeafNode { inner }
}

/// Compares an answer of ours with what is due, and counts it.
fn same<T: PartialEq + std::fmt::Debug>(
    call: &'static str,
    page: &[u8],
    inputs: &str,
    ours: Result<T, Damage>,
    due: T,
    tally: &mut Tally,
) -> Result<(), Mismatch> {
    agree(call, page, inputs, ours, due)?;
    tally.agreed(call);
    Ok(())
}

/// Compares an answer of ours with what is due.
pub fn agree<T: PartialEq + std::fmt::Debug>(
    call: &'static str,
    page: &[u8],
    inputs: &str,
    ours: Result<T, Damage>,
    due: T,
) -> Result<(), Mismatch> {
    let lines = || vec![("page", hex::write(page)), ("inputs", inputs.to_string())];
    let ours = ours.map_err(|damage| Mismatch::damage(call, lines(), damage))?;
    if ours == due {
        return Ok(());
    }
    let mut lines = lines();
    lines.push(("ours", format!("{ours:?}")));
    lines.push(("due", format!("{due:?}")));
    Err(Mismatch { call, lines })
}

const fn refused(refusal: u8) -> LeafValue {
    LeafValue {
        refusal,
        absent: 0,
        flag: 0,
        offset: 0,
        len: 0,
        position: 0,
    }
}

/// Every call refuses a bad page by the page's own number, whatever else it is asked.
fn check_refused(
    lent: &LentPage,
    page: &[u8],
    number: u8,
    rng: &mut Rng,
    tally: &mut Tally,
) -> Result<(), Mismatch> {
    let call = "refused page";
    let (i, to) = (rng.between(0, 125), rng.between(0, 125));
    let key = rng.key();
    let inputs = format!("index {i}, to {to}, key {}", hex::plain(&key));
    let reply = lent.key(i).map(|reply| (reply.refusal, reply.key));
    same(call, page, &inputs, reply, (number, [0; 32]), tally)?;
    same(call, page, &inputs, lent.value(i), refused(number), tally)?;
    same(call, page, &inputs, lent.get(&key), refused(number), tally)?;
    let size = lent.values_size(i, to);
    let size = size.map(|reply| (reply.refusal, reply.bytes));
    same(call, page, &inputs, size, (number, 0), tally)?;
    let before = made::bytes(rng, 40);
    let rebuilt = lent.rebuild([i, i, to], &before);
    same(call, page, &inputs, rebuilt, (number, before), tally)
}

/// What a read gives of the Rust's value, a part of its page.
fn cell(node: &LeafNode, value: (&[u8], bool)) -> LeafValue {
    LeafValue {
        refusal: 0,
        absent: 0,
        flag: value.1.into(),
        offset: value.0.as_ptr() as usize - node.inner.as_ptr() as usize,
        len: value.0.len(),
        position: 0,
    }
}

/// Where an absent key would stand: the `Err(i)` of the search that `LeafNode::get` makes and does not hand on.
pub fn position(node: &LeafNode, key: &Key) -> usize {
    let pointers: Vec<usize> = (0..node.n()).collect();
    match pointers.binary_search_by(|&i| node.key(i).cmp(key)) {
        Ok(_) => unreachable!("the Rust finds no such key"),
        Err(i) => i,
    }
}

/// Key and value of each record, and the refusals just past the last.
fn check_records(
    lent: &LentPage,
    page: &[u8],
    node: &LeafNode,
    tally: &mut Tally,
) -> Result<(), Mismatch> {
    for i in 0..node.n() + 2 {
        let inputs = format!("index {i}");
        let key = lent.key(i).map(|reply| (reply.refusal, reply.key));
        let (due_key, due_value) = if i < node.n() {
            ((0, node.key(i)), cell(node, node.value(i)))
        } else {
            ((NO_SUCH_INDEX, [0; 32]), refused(NO_SUCH_INDEX))
        };
        same("page key", page, &inputs, key, due_key, tally)?;
        same("page value", page, &inputs, lent.value(i), due_value, tally)?;
    }
    Ok(())
}

/// `get` of each key of the page, of its neighbours, and of a random one.
fn check_gets(
    lent: &LentPage,
    page: &[u8],
    node: &LeafNode,
    rng: &mut Rng,
    tally: &mut Tally,
) -> Result<(), Mismatch> {
    let mut keys = vec![[0; 32], [0xff; 32], rng.key()];
    for i in 0..node.n() {
        let key = node.key(i);
        keys.extend([key, made::below(&key), made::above(&key)]);
    }
    for key in keys {
        let due = match node.get(&key) {
            Some(value) => cell(node, value),
            None => LeafValue {
                absent: 1,
                position: position(node, &key),
                ..refused(0)
            },
        };
        let inputs = format!("key {}", hex::plain(&key));
        same("page get", page, &inputs, lent.get(&key), due, tally)?;
    }
    Ok(())
}

fn check_range(
    lent: &LentPage,
    page: &[u8],
    node: &LeafNode,
    rng: &mut Rng,
    tally: &mut Tally,
) -> Result<(), Mismatch> {
    let n = node.n();
    let (from, to) = (rng.between(0, n + 1), rng.between(0, n + 1));
    let due = if from < to && to <= n {
        (0, node.values_size(from, to))
    } else {
        (NO_SUCH_INDEX, 0)
    };
    let size = lent.values_size(from, to);
    let size = size.map(|reply| (reply.refusal, reply.bytes));
    let inputs = format!("from {from}, to {to}");
    same("page values_size", page, &inputs, size, due, tally)
}

/// A page built from some of the records, by cells and then as a chunk, on both sides.
fn check_rebuild(
    lent: &LentPage,
    page: &[u8],
    node: &LeafNode,
    pool: &PagePool,
    rng: &mut Rng,
    tally: &mut Tally,
) -> Result<(), Mismatch> {
    let n = node.n();
    let range = made::range(rng, n);
    let [from, mid, to] = range;
    let length = [PAGE_SIZE, PAGE_SIZE - 1, PAGE_SIZE + 77, 0][rng.between(0, 3)];
    let before = made::bytes(rng, length);
    let mut due = before.clone();
    let reply = if !(from <= mid && mid <= to && to <= n) {
        NO_SUCH_INDEX
    } else if length < PAGE_SIZE {
        SHORT_AREA
    } else {
        due[..PAGE_SIZE].copy_from_slice(&build(pool, node, range));
        0
    };
    let inputs = format!("from {from}, mid {mid}, to {to}, buffer of {length}");
    let rebuilt = lent.rebuild(range, &before);
    same("page rebuild", page, &inputs, rebuilt, (reply, due), tally)
}

/// The Rust's page of the records from..to, those before `mid` pushed as cells, the others as a chunk. Its gap, which
/// holds what the pool's page held, is cleared, as document 01 wants of ours.
pub fn build(pool: &PagePool, node: &LeafNode, range: [usize; 3]) -> Vec<u8> {
    let [from, mid, to] = range;
    let n = to - from;
    let total: usize = (from..to).map(|i| node.value(i).0.len()).sum();
    let mut builder = LeafBuilder::new(pool, n, total);
    for i in from..mid {
        let (value, flag) = node.value(i);
        builder.push_cell(node.key(i), value, flag);
    }
    if mid < to {
        builder.push_chunk(node, mid, to);
    }
    let mut page = builder.finish().inner.to_vec();
    clear_gap(&mut page);
    page
}

/// Clears what stands between the pointers and the first value.
pub fn clear_gap(page: &mut [u8]) {
    let n = count(page);
    let first = if n == 0 {
        PAGE_SIZE
    } else {
        offset_at(page, 0)
    };
    page[pointer(n)..first].fill(0);
}
