//! The axis of frames, for each number of frames that it has to go past.
use hits::axis::{Axis, Scale, LONGEST};

#[test]
fn it_goes_past_every_number_and_no_further_than_it_must() {
    for frames in 0..=LONGEST + 1 {
        let axis = Axis::past(frames);
        assert!(axis.end() > frames || axis.end() == LONGEST, "{frames}: {axis:?}");
        assert!(axis.end() <= LONGEST && axis.end() <= (2 * frames).max(8), "{frames}: {axis:?}");
        assert_eq!(matches!(axis.scale(), Scale::Logarithmic), frames > 128, "{frames}");
    }
}

#[test]
fn numbers_stand_apart_along_it() {
    for frames in 0..=LONGEST {
        let axis = Axis::past(frames);
        let ticks = axis.ticks();
        assert_eq!((ticks[0], ticks[ticks.len() - 1]), (0, axis.end()), "{frames}: {ticks:?}");
        assert!((5..=14).contains(&ticks.len()), "{frames}: {ticks:?}");
        let apart = ticks.windows(2).map(|pair| axis.place(pair[1]) - axis.place(pair[0]));
        assert!(apart.clone().all(|apart| apart > 0.045), "{frames}: {:?}", apart.collect::<Vec<_>>());
    }
}

#[test]
fn places_rise_from_0_to_1() {
    for frames in [0, 1, 64, 128, 129, 1000, LONGEST] {
        let axis = Axis::past(frames);
        assert_eq!((axis.place(0), axis.place(axis.end()), axis.place(u64::MAX)), (0.0, 1.0, 1.0));
        assert!((0..axis.end()).all(|at| axis.place(at) < axis.place(at + 1)), "{frames}");
    }
    let is_half = |frames, at| (Axis::past(frames).place(at) - 0.5).abs() < 1e-4;
    assert!(is_half(99, 50), "linear to 100");
    assert!(is_half(4095, 63), "64 is the root of 4,096");
}
