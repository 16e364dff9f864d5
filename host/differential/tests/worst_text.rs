//! The longest text that a file within the limit has: a name of half of its bytes before each of as many bools. No memory holds it, and the walk that
//! measures it must not go through the name for each of them.
#![cfg(feature = "linked")]

use calls::{Call, Implementation, Lent, LENGTH_LIMIT};
use differential::linked::Linked;
use std::time::{Duration, Instant};

/// One prototype of one array of bools, and one block of it.
fn file(name: usize, count: usize) -> Vec<u8> {
    let mut file = b"BSII\x02\0\0\0\0\0\0\0\x01\x01\0\0\0\x01\0\0\0p\x36\0\0\0".to_vec();
    file.extend((name as u32).to_le_bytes());
    file.extend(vec![b'n'; name]);
    file.extend([0, 0, 0, 0, 1, 0, 0, 0, 0]);
    file.extend((count as u32).to_le_bytes());
    file.extend(vec![1; count]);
    file.extend([0; 5]);
    file
}

/// How many digits the numbers from 0 to `count` - 1 have together.
fn digits(count: u64) -> u64 {
    let tens = (1..20).map(|power| 10u64.pow(power));
    count + tens.map(|ten| count.saturating_sub(ten)).sum::<u64>()
}

#[test]
fn is_measured_without_going_through_the_name() {
    let half = LENGTH_LIMIT / 2 - 24;
    let (name, count) = (half as u64, half as u64);
    let file = file(half, half);
    assert!(file.len() <= LENGTH_LIMIT && LENGTH_LIMIT < file.len() + 64);
    let mut table = [7; 3];
    let start = Instant::now();
    let lent = Lent::file(&file, &mut table);
    let answer = Linked.answer(Call::ToSiin, lent).text();
    let lent = Lent::file(&file, &mut table);
    let foretold = Linked.answer(Call::Forecast, lent).forecast();
    let time = start.elapsed();
    // `  NAME: COUNT`, and for each element `  NAME[i]: true`, each with a line feed
    let lines = 2 + name + 2 + count.to_string().len() as u64 + 1;
    let elements = count * (2 + name + 1 + 3 + 4 + 1) + digits(count);
    let frame = "SiiNunit\n{\np : null {\n}\n}\n".len() as u64;
    assert_eq!((answer.number, answer.offset), (11, 0));
    assert_eq!(answer.length, frame + lines + elements);
    let figures = (foretold.number, foretold.text_len, foretold.steps);
    assert_eq!(figures, (0, answer.length, 4));
    assert_eq!(table, [0; 3]);
    // 2^46 bytes of names would take hours
    assert!(time < Duration::from_secs(10), "measured in {time:?}");
}
