//! Stands in for nomt's page pool, which is not among the sources.
//!
//! As there, a page that is dropped goes back to its pool and is handed out again with what it held. A fresh
//! page is filled with a byte that is not zero: nobody may take a page's gap for cleared.

use super::PAGE_SIZE;
use std::cell::RefCell;
use std::ops::{Deref, DerefMut};
use std::rc::Rc;

const FRESH: u8 = 0xa5;

type Page = Box<[u8; PAGE_SIZE]>;

#[derive(Clone)]
pub struct PagePool {
    free: Rc<RefCell<Vec<Page>>>,
}

impl PagePool {
    pub fn new() -> Self {
        PagePool {
            free: Rc::default(),
        }
    }

    pub fn alloc_fat_page(&self) -> FatPage {
        let reused = self.free.borrow_mut().pop();
        FatPage {
            page: Some(reused.unwrap_or_else(|| Box::new([FRESH; PAGE_SIZE]))),
            pool: self.clone(),
        }
    }
}

/// A page that knows its pool.
pub struct FatPage {
    // None only while it is dropped.
    page: Option<Page>,
    pool: PagePool,
}

impl Deref for FatPage {
    type Target = [u8];

    fn deref(&self) -> &[u8] {
        self.page.as_deref().unwrap()
    }
}

impl DerefMut for FatPage {
    fn deref_mut(&mut self) -> &mut [u8] {
        self.page.as_deref_mut().unwrap()
    }
}

impl Drop for FatPage {
    fn drop(&mut self) {
        self.pool.free.borrow_mut().extend(self.page.take());
    }
}
