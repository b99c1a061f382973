//! What the times were taken on: the processor, the day, the compiler.

use std::fs;
use std::process::Command;
use std::time::{SystemTime, UNIX_EPOCH};

pub fn describe() -> String {
    format!("{}, {}, {}", processor(), today(), compiler())
}

fn processor() -> String {
    let info = fs::read_to_string("/proc/cpuinfo").unwrap_or_default();
    let lines = info.lines().filter(|line| line.starts_with("model name"));
    let names: Vec<&str> = lines.filter_map(|line| line.split(": ").nth(1)).collect();
    match names.first() {
        Some(name) => format!("{name} ({} processors)", names.len()),
        None => "unknown processor".to_string(),
    }
}

fn compiler() -> String {
    let output = Command::new("rustc").arg("--version").output();
    let version = output.map(|output| String::from_utf8_lossy(&output.stdout).trim().to_string());
    version.unwrap_or_else(|_| "unknown compiler".to_string())
}

/// The day by the clock, in UTC.
fn today() -> String {
    let now = SystemTime::now().duration_since(UNIX_EPOCH);
    let mut days = now.map_or(0, |now| now.as_secs() / 86_400);
    let mut year = 1970;
    while days >= days_of(year) {
        days -= days_of(year);
        year += 1;
    }
    let february = if days_of(year) == 366 { 29 } else { 28 };
    let mut month = 1;
    for length in [31, february, 31, 30, 31, 30, 31, 31, 30, 31, 30, 31] {
        if days < length {
            break;
        }
        days -= length;
        month += 1;
    }
    format!("{year}-{month:02}-{:02}", days + 1)
}

fn days_of(year: u64) -> u64 {
    let every = |years: u64| year.is_multiple_of(years);
    let leap = every(4) && (!every(100) || every(400));
    if leap {
        366
    } else {
        365
    }
}
