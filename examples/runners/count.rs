//! What is tested: a count that threads raise.
use std::sync::atomic::{AtomicU64, Ordering::SeqCst};

#[derive(Default)]
pub struct Count(AtomicU64);

impl Count {
    pub fn advance(&self) {
        self.0.fetch_add(1, SeqCst);
    }

    pub fn read(&self) -> u64 {
        self.0.load(SeqCst)
    }
}
