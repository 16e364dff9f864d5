//! A library with one wrong answer, for a fuzzer that has to find it.

use calls::{parts_of, Answer, Call, Implementation, Lent};
use differential::linked::Linked;

/// No seed has a number that ends in these four bytes. `tests/fuzz/run` tells the fuzzer of them, and
/// it has to bring them to a place where a number stands.
const RARE: u32 = 0x6b1d_93e5;

/// Answers like the library, but a number that ends in `RARE` comes one too high.
pub struct Wrong(pub Linked);

impl Implementation for Wrong {
    fn answer(&mut self, call: Call<'_>, lent: Lent<'_>) -> Answer {
        let mut answer = self.0.answer(call, lent);
        if let Answer::Element(element) = &mut answer {
            let is_number = element.number == 0 && parts_of(element.kind) == 0;
            if is_number && element.value as u32 == RARE {
                element.value += 1;
            }
        }
        answer
    }
}
