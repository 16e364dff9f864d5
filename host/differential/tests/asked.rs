//! Indexes that the comparison looks up by.

use calls::{Answer, Call, Implementation, Lent, RECORD};
use differential::compare::Comparison;
use differential::report::Tally;
use generate::Random;
use model::Model;
use std::sync::atomic::{AtomicU64, Ordering::Relaxed};
use std::sync::Arc;

/// The model, and how many look-ups it is asked by records of any bytes.
struct Spy {
    model: Model,
    by_any_bytes: Arc<AtomicU64>,
}

impl Implementation for Spy {
    fn answer(&mut self, call: Call<'_>, lent: Lent<'_>) -> Answer {
        if let Call::FieldByIndex { index, block, .. } = call {
            let count = u64::from(is_of_any_bytes(index, block));
            self.by_any_bytes.fetch_add(count, Relaxed);
        }
        self.model.answer(call, lent)
    }
}

/// Whether the block's offset leads far behind every generated file, and is none of the largest, which
/// are chosen for themselves.
fn is_of_any_bytes(index: &[u8], block: u64) -> bool {
    let mut records = index.chunks_exact(RECORD);
    let record = usize::try_from(block).ok().and_then(|n| records.nth(n));
    record.is_some_and(|record| (0x10..0xff).contains(&record[2]))
}

#[test]
fn look_ups_by_any_bytes() {
    let by_any_bytes = Arc::new(AtomicU64::new(0));
    let mut comparison = Comparison::default();
    comparison.library = Some(Box::new(Spy {
        model: Model::default(),
        by_any_bytes: by_any_bytes.clone(),
    }));
    for number in 0..500 {
        let file = generate::file(1, number);
        assert!(file.len() < 1 << 20);
        let mut random = Random::new(2, number);
        let check = comparison.file(&file, &mut random, &mut Tally::default());
        assert!(check.is_ok());
    }
    assert!(by_any_bytes.load(Relaxed) > 0);
}
