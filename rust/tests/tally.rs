//! A tally's calls, on counters of the caller's own and together with them.
use pagepool::{
    tally_add, tally_report, tally_share, Refusal, ReportRow, Share, Tally, TallyHead, DEPTHS,
    MOST_RECORDINGS, MOST_REFERENCES,
};

/// The header's recording, with depths of 2, 1 and 3.
const PAGES: [u16; 6] = [5, 7, 5, 5, 9, 7];

#[test]
fn lent_counters() {
    let (mut head, mut counts, mut hits) = (TallyHead::default(), [0; DEPTHS], [7; DEPTHS]);
    assert_eq!(tally_add(&mut head, &mut counts, &PAGES), Ok(()));
    assert_eq!(head, TallyHead { recordings: 1, references: 6 });
    assert_eq!((&counts[..3], counts.iter().sum::<u32>()), (&[1; 3][..], 3));
    assert_eq!(tally_share(head, &counts, 2), Ok(Share { within: 2, all: 6 }));
    assert_eq!(tally_report(&counts, &mut hits), Ok(()));
    assert_eq!((&hits[..3], &hits[3..]), (&[1, 2, 3][..], &[3; DEPTHS - 3][..]));
}

/// Wrong lengths of counters and hits are handed on as they are, and refused there.
#[test]
fn other_lengths() {
    for length in [0, DEPTHS - 1, DEPTHS + 1] {
        let (mut head, mut counts, mut hits) = (TallyHead::default(), vec![0; length], vec![7; length]);
        assert_eq!(tally_add(&mut head, &mut counts, &PAGES), Err(Refusal::WrongLength));
        assert_eq!(tally_share(head, &counts, 2), Err(Refusal::WrongLength));
        assert_eq!(tally_report(&counts, &mut [7; DEPTHS]), Err(Refusal::WrongLength));
        assert_eq!(tally_report(&[0; DEPTHS], &mut hits), Err(Refusal::WrongLength));
        assert_eq!((head, counts, hits), (TallyHead::default(), vec![0; length], vec![7; length]));
        assert_eq!(Tally::from_parts(head, vec![0; length]), Err(Refusal::WrongLength));
    }
}

#[test]
fn refused_adds_nothing() {
    let mut tally = Tally::default();
    tally.add(&PAGES).expect("a recording");
    let before = tally.clone();
    assert_eq!(tally.add(&[]), Err(Refusal::WrongLength));
    assert_eq!(tally.add(&[0; MOST_REFERENCES + 1]), Err(Refusal::WrongLength));
    assert_eq!(tally.add(&[5, 5, 4096]), Err(Refusal::BadPage));
    assert_eq!(tally, before);

    let with = |recordings, references| {
        Tally::from_parts(TallyHead { recordings, references }, before.counts()).expect("4,095 counters")
    };
    for (recordings, references, answer) in [
        (MOST_RECORDINGS, 6, Err(Refusal::WrongLength)),
        (1, 4097, Err(Refusal::Disagree)),
        (1, 2, Err(Refusal::Disagree)),
        (1, 3, Ok(())),
        (1, 4096, Ok(())),
    ] {
        let mut tally = with(recordings, references);
        assert_eq!(tally.add(&[0]), answer, "{tally:?}");
        let one = u32::from(answer.is_ok());
        assert_eq!(tally.counts(), before.counts());
        assert_eq!(
            (u32::from(tally.recordings()), tally.references()),
            (u32::from(recordings) + one, references + one)
        );
    }
}

#[test]
fn reported() {
    let mut tally = Tally::new();
    tally.add(&PAGES).expect("a recording");
    let report = tally.report();
    assert_eq!(
        report.iter().map(|row| usize::from(row.depth)).collect::<Vec<_>>(),
        Vec::from_iter(1..=DEPTHS)
    );
    assert_eq!(report[2], ReportRow { depth: 3, references: 1, hits: 3 });
    assert_eq!(report[DEPTHS - 1], ReportRow { depth: 4095, references: 0, hits: 3 });
    for row in report {
        assert_eq!(tally.share(row.depth.into()), Share { within: row.hits, all: 6 });
    }
    assert_eq!(format!("{tally:?}"), "TallyHead { recordings: 1, references: 6 }\n  1: 1\n  2: 1\n  3: 1");
}

/// Sums that need 64 bits.
#[test]
fn any_counters() {
    let head = TallyHead { recordings: 0, references: u32::MAX };
    let tally = Tally::from_parts(head, [u32::MAX; DEPTHS]).expect("4,095 counters");
    let within = DEPTHS as u64 * u64::from(u32::MAX);
    assert_eq!(tally.share(u64::MAX), Share { within, all: u32::MAX.into() });
    assert_eq!(tally.report()[DEPTHS - 1].hits, within);
    assert_eq!((tally.head(), tally.clone().add(&[0])), (head, Err(Refusal::Disagree)));
}

#[test]
fn figures() {
    let header = include_str!("../../include/pagepool.h");
    for (name, figure) in [
        ("DEPTHS", DEPTHS),
        ("MOST_REFERENCES", MOST_REFERENCES),
        ("MOST_RECORDINGS", MOST_RECORDINGS.into()),
    ] {
        assert!(header.contains(&format!("\n#define POOL_{name} {figure}\n")), "{name}");
    }
}
