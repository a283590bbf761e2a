//! A complete test of one's own eventcount. With `--cfg bug` it is refused, or hangs. To build it:
//! rustc --edition 2021 --test --cfg libevc example_stress.rs -L FOLDER_OF_LIBEVC -l static=evc
#[path = "../library/evc.rs"]
mod evc;
mod evc_calls;
mod evc_stress;

use std::sync::atomic::{AtomicU64, Ordering::SeqCst};
struct Count(AtomicU64);

impl evc_stress::Eventcount for Count {
    fn fresh() -> Self {
        Count(AtomicU64::new(0))
    }
    fn advance(&self) {
        let (seen, _) = (self.read(), std::thread::yield_now()); // others come in between
        match cfg!(bug) {
            true => self.0.store(seen + 1, SeqCst),
            false => drop(self.0.fetch_add(1, SeqCst)),
        }
    }
    fn read(&self) -> u64 {
        self.0.load(SeqCst)
    }
    fn await_count(&self, threshold: u64) -> evc_calls::Reply {
        while self.read() < threshold {
            std::thread::yield_now();
        }
        evc_calls::Reply::Number(self.read())
    }
}
#[test]
fn it_counts() {
    evc_stress::Stress::default().run::<Count>().unwrap();
}
