//! The machine and the date, for the report.

use std::fs;
use std::time::{SystemTime, UNIX_EPOCH};

/// The first value under a name in a file of lines `name : value`.
fn value(path: &str, name: &str) -> Option<String> {
    let text = fs::read_to_string(path).ok()?;
    let found = text.lines().find_map(|line| {
        let (key, value) = line.split_once(':')?;
        (key.trim() == name).then(|| value.trim().to_string())
    });
    found
}

/// Processor, cores, memory and date; what the system does not say is left out.
pub fn line() -> String {
    let mut parts = Vec::new();
    parts.extend(value("/proc/cpuinfo", "model name"));
    if let Ok(cores) = std::thread::available_parallelism() {
        parts.push(format!("{cores} cores"));
    }
    let memory = value("/proc/meminfo", "MemTotal");
    let kibibytes = memory.and_then(|text| text.strip_suffix("kB")?.trim().parse::<u64>().ok());
    parts.extend(kibibytes.map(|kibibytes| format!("{} GB", kibibytes * 1024 / 1_000_000_000)));
    let kernel = fs::read_to_string("/proc/sys/kernel/osrelease");
    parts.extend(kernel.map(|release| format!("Linux {}", release.trim())));
    let seconds = SystemTime::now().duration_since(UNIX_EPOCH);
    parts.extend(seconds.map(|seconds| date(seconds.as_secs() / 86_400)));
    parts.join(", ")
}

/// The date so many days after 1970-01-01.
fn date(days: u64) -> String {
    let mut left = days;
    let leap = |year: u64| {
        year.is_multiple_of(4) && (!year.is_multiple_of(100) || year.is_multiple_of(400))
    };
    let mut year = 1970;
    while left >= 365 + leap(year) as u64 {
        left -= 365 + leap(year) as u64;
        year += 1;
    }
    let lengths = [
        31,
        28 + leap(year) as u64,
        31,
        30,
        31,
        30,
        31,
        31,
        30,
        31,
        30,
        31,
    ];
    let mut month = 0;
    while left >= lengths[month] {
        left -= lengths[month];
        month += 1;
    }
    format!("{year}-{:02}-{:02}", month + 1, left + 1)
}

#[cfg(test)]
mod tests {
    use super::*;

    #[test]
    fn dates() {
        assert_eq!(date(0), "1970-01-01");
        assert_eq!(date(59), "1970-03-01");
        assert_eq!(date(11_016), "2000-02-29");
        assert_eq!(date(11_017), "2000-03-01");
        assert_eq!(date(20_453), "2025-12-31");
        assert_eq!(date(20_454), "2026-01-01");
    }
}
