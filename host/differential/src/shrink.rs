//! Makes a file that shows a difference smaller.

/// Longer files stay as they are.
const LONGEST: usize = 1 << 16;
/// How much of a file is shown.
const SHOWN: usize = 512;

/// Cuts out parts, then lowers bytes, as long as `still` holds.
pub fn shrink(file: &[u8], mut still: impl FnMut(&[u8]) -> bool) -> Vec<u8> {
    let mut small = file.to_vec();
    if small.len() > LONGEST {
        return small;
    }
    loop {
        let before = small.clone();
        let mut size = small.len() / 2;
        while size > 0 {
            cut_parts(&mut small, size, &mut still);
            size /= 2;
        }
        lower_bytes(&mut small, &mut still);
        if small == before {
            return small;
        }
    }
}

fn cut_parts(small: &mut Vec<u8>, size: usize, still: &mut impl FnMut(&[u8]) -> bool) {
    let mut at = 0;
    while at + size <= small.len() {
        let shorter = [&small[..at], &small[at + size..]].concat();
        if still(&shorter) {
            *small = shorter;
        } else {
            at += 1;
        }
    }
}

fn lower_bytes(small: &mut [u8], still: &mut impl FnMut(&[u8]) -> bool) {
    for at in 0..small.len() {
        let byte = small[at];
        for lower in [0, 1, byte.saturating_sub(1)] {
            if lower < small[at] {
                let kept = small[at];
                small[at] = lower;
                if !still(small) {
                    small[at] = kept;
                }
            }
        }
    }
}

/// Sixteen bytes to a line.
pub fn hex_dump(bytes: &[u8]) -> String {
    let mut text = format!("    {} bytes\n", bytes.len());
    for (i, line) in bytes.chunks(16).take(SHOWN / 16).enumerate() {
        let hex: Vec<String> = line.iter().map(|byte| format!("{byte:02x}")).collect();
        let plain = |byte: &u8| {
            if (32..127).contains(byte) {
                *byte as char
            } else {
                '.'
            }
        };
        let plain: String = line.iter().map(plain).collect();
        text += &format!("    {:04x}  {:<47}  {plain}\n", 16 * i, hex.join(" "));
    }
    text
}
