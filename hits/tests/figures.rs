//! Figures as a person reads them.
use hits::figures::{grouped, per_cent, several};

#[test]
fn thousands_stand_apart() {
    for (number, text) in
        [(0, "0"), (999, "999"), (1000, "1,000"), (65_535, "65,535"), (268_431_360, "268,431,360")]
    {
        assert_eq!(grouped(number as u64), text);
    }
    assert_eq!(grouped(u64::MAX), "18,446,744,073,709,551,615");
    assert_eq!(
        [several(0u64, "frame"), several(1u64, "frame"), several(4096u64, "frame")],
        ["0 frames", "1 frame", "4,096 frames"]
    );
}

#[test]
fn per_cent_are_never_rounded_up() {
    for (part, whole, text) in [
        (0, 1, "0.00%"),
        (1, 1, "100.00%"),
        (1, 2, "50.00%"),
        (1, 3, "33.33%"),
        (2, 3, "66.66%"),
        (1, 8, "12.50%"),
        (1, 10_000, "0.01%"),
        (1, 10_001, "0.00%"),
        (9_999, 10_000, "99.99%"),
        (268_431_359, 268_431_360, "99.99%"),
        (u64::MAX, u64::MAX, "100.00%"),
        (0, 0, "0.00%"),
    ] {
        assert_eq!(per_cent(part, whole), text, "{part} of {whole}");
    }
}
