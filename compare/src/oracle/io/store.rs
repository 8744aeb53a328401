//! Stands in for nomt's allocator, store and I/O, as far as overflow.rs asks: numbers that are lent, and pages in memory.

use super::page_pool::{FatPage, PagePool};
use std::cell::{Cell, RefCell};
use std::collections::HashMap;

#[derive(Clone, Copy, Debug, PartialEq, Eq, Hash)]
pub struct PageNumber(pub u32);

/// Hands out the lent numbers in order.
pub struct SyncAllocator {
    pub numbers: Vec<u32>,
    pub used: Cell<usize>,
}

impl SyncAllocator {
    pub fn allocate(&self) -> std::io::Result<PageNumber> {
        let used = self.used.get();
        self.used.set(used + 1);
        Ok(PageNumber(self.numbers[used]))
    }

    pub fn store_fd(&self) -> i32 {
        0
    }
}

pub enum IoKind {
    Read(i32, u64, FatPage),
    Write(i32, u64, FatPage),
}

pub struct IoCommand {
    pub kind: IoKind,
    pub user_data: u64,
}

/// Keeps the pages that were written, in their order.
#[derive(Default)]
pub struct IoHandle {
    pub written: RefCell<Vec<(u64, Vec<u8>)>>,
}

impl IoHandle {
    pub fn send(&self, command: IoCommand) -> Result<(), ()> {
        match command.kind {
            IoKind::Write(_, number, page) => {
                self.written.borrow_mut().push((number, page.to_vec()))
            }
            IoKind::Read(..) => return Err(()),
        }
        Ok(())
    }
}

/// Pages by their numbers.
pub struct StoreReader {
    pub pages: HashMap<u32, Vec<u8>>,
    pub pool: PagePool,
}

impl StoreReader {
    pub fn query(&self, number: PageNumber) -> FatPage {
        let mut page = self.pool.alloc_fat_page();
        page.copy_from_slice(&self.pages[&number.0]);
        page
    }

    pub fn io_command(&self, number: PageNumber, user_data: u64) -> IoCommand {
        let kind = IoKind::Read(0, number.0.into(), self.pool.alloc_fat_page());
        IoCommand { kind, user_data }
    }
}
