//! The kept sample is what the published Rust answers today.

use std::fs;

#[test]
fn the_sample_is_the_rusts() {
    let kept = fs::read("../../crates/replay/stdin").expect("the sample is the standard input of the replay");
    let made: Vec<u8> = differential::sample::words().iter().flat_map(|w| w.to_le_bytes()).collect();
    assert!(kept == made, "make the sample again, as tests/oracle-sample/README.md says");
}

/// Each section's records have the length that the README gives.
#[test]
fn the_sections_are_as_the_readme_says() {
    let sections = [
        (1000, 2),
        (200, 13),
        (200, 24),
        (200, 3),
        (200, 64),
        (80, 86),
        (250, 144),
        (250, 102),
        (400, 146),
        (120, 91),
        (100, 358),
    ];
    let words = differential::sample::words();
    let mut at = 0;
    for (count, length) in sections {
        assert_eq!(words[at], count);
        at += 1 + (count * length) as usize;
    }
    assert_eq!(at, words.len());
}
