//! What wrong implementations of several tests have in common.

use calls::Text;

/// The answer of a text call with this text and these steps, in an output that holds what it held
/// before the call.
pub fn store(text: &[u8], steps: u64, out: &mut [u8]) -> Text {
    let fits = text.len() <= out.len();
    if fits {
        out[..text.len()].copy_from_slice(text);
    }
    Text {
        number: if fits { 0 } else { 11 },
        length: text.len() as u64,
        steps: if fits { steps } else { 0 },
        ..Text::default()
    }
}
