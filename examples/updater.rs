//! Changes two leaves in a row. After the changes too little is left of the first one for a leaf, so it is merged with the
//! second. The same as updater.c; `make examples` builds and runs it.
#[path = "../include/leaf_updater.rs"]
mod leaf_updater;
use leaf_updater::*;

const PAGE: usize = 4096;

/// All memory is the caller's; zeros are no open work. Area and tickets are enough for any digest with this list and store.
struct Memory {
    work: Work,
    list: [Entry; 121],
    store: [u8; 8192],
    area: [u8; 7 * PAGE],
    tickets: [u8; 7 * 65],
}

/// A call: the work, list and store that it is lent, and what else it takes. Each pointer is to as many elements as the length
/// behind it says, and what a call changes overlaps nothing else.
macro_rules! call {
    ($call:ident($work:expr) of $m:ident; $($more:expr),*) => {{
        let (list, store) = (&mut $m.list, &mut $m.store);
        unsafe { $call($work, list.as_mut_ptr(), list.len(), store.as_mut_ptr(), store.len(), $($more),*) }
    }};
}

fn must(refusal: u8) {
    assert_eq!(refusal, 0, "refused");
}

/// The value of the key of 32 times this byte is to be so many times the letter; where that is no byte, the key is deleted.
fn ingest(m: &mut Memory, page: &[u8], byte: u8, letter: u8, len: usize) {
    let (key, put, value) = ([byte; 32], u8::from(len > 0), vec![letter; len]);
    must(call!(leaf_ingest(&mut m.work) of m; page.as_ptr(), PAGE, &key, put, 0, value.as_ptr(), len).refusal);
}

fn print_record(what: &str, key: Key, value: &[u8]) {
    let (len, letter) = (value.len(), value[0] as char);
    println!("  {what} {:02x}: {len} times {letter}", key[0]);
}

/// Prints the leaves that it gives, each a page of the area and a ticket, which is shorter where there is no cutoff.
fn digest(m: &mut Memory, page: &[u8]) -> LeafGave {
    let (area, area_len) = (m.area.as_mut_ptr(), m.area.len());
    let (tickets, tickets_len) = (m.tickets.as_mut_ptr(), m.tickets.len());
    let gave = call!(leaf_digest(&mut m.work) of m; page.as_ptr(), PAGE, area, area_len, tickets, tickets_len);
    must(gave.refusal);
    let mut ticket = &m.tickets[..];
    for page in m.area.chunks(PAGE).take(gave.leaves) {
        match ticket[0] {
            1 => println!("leaf from {:02x} to {:02x}", ticket[1], ticket[33]),
            _ => println!("leaf from {:02x} on", ticket[1]),
        }
        ticket = &ticket[if ticket[0] == 1 { 65 } else { 33 }..];
        for i in 0..usize::from(page[0]) {
            let key = unsafe { leaf_page_key(page.as_ptr(), PAGE, i) }.key;
            let value = unsafe { leaf_page_value(page.as_ptr(), PAGE, i) };
            print_record("record", key, &page[value.offset..][..value.len]);
        }
    }
    gave
}

/// Prints the records that a digest left pending; all are listed then. The store has the value where the holder is 1, else the base.
fn print_pending(m: &mut Memory, page: &[u8]) {
    for i in 0..m.work.count {
        let twin = call!(leaf_twin(m.work) of m; page.as_ptr(), PAGE, i);
        let holder = if twin.holder == 1 { &m.store } else { page };
        print_record("pending", twin.key, &holder[twin.offset..][..twin.len]);
    }
}

/// A page of three records: a work without a base gives it. Such a work ignores the page that it is lent.
fn make_page(m: &mut Memory, first: u8, letter: u8, len: usize) -> Vec<u8> {
    let any = vec![0; PAGE];
    must(call!(leaf_open(&mut m.work) of m; 1, 0, any.as_ptr(), PAGE, &[0; 32], 0, &[0; 32]));
    (0..3).for_each(|i| ingest(m, &any, first + i * 0x10, letter + i, len));
    digest(m, &any);
    m.area[..PAGE].to_vec()
}

fn main() {
    let m: &mut Memory = &mut unsafe { std::mem::zeroed() };
    let left = make_page(m, 0x10, b'a', 300);
    let right = make_page(m, 0x40, b'd', 1000);
    println!("changes from 00 to 40: 15 is new, 20 deleted, 30 changed");
    must(call!(leaf_open(&mut m.work) of m; 1, 1, left.as_ptr(), PAGE, &[0; 32], 1, &[0x40; 32]));
    ingest(m, &left, 0x15, b'x', 200);
    ingest(m, &left, 0x20, b'-', 0);
    ingest(m, &left, 0x30, b'y', 500);
    let cutoff = digest(m, &left).cutoff;
    print_pending(m, &left);
    println!("merged with the leaf at {:02x}; 50 changed", cutoff[0]);
    must(call!(leaf_next_base(&mut m.work) of m; right.as_ptr(), PAGE, &cutoff, 0, &[0; 32]));
    ingest(m, &right, 0x50, b'z', 1100);
    digest(m, &right);
}
