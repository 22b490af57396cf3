//! Forms of rule 2's test of the directory, alone, all in safe Rust: that of the library and the baseline, and others that were
//! tried against it. Each is lent records that agree with their frames, and a directory of any bytes.
use crate::baseline::directory::{agrees, gives, Directory, NOWHERE};
use crate::baseline::keys::Keys;
use pagepool::{FrameRecord, Pool, BUCKETS, MOST_FRAMES};

/// What is tested: the records of the F frames, the page in each of 64, as rule 2's other tests leave it, and the bytes.
pub struct Lent {
    records: Vec<FrameRecord>,
    keys: Keys,
    directory: Directory,
}

impl Lent {
    pub fn new(pool: &Pool, directory: Directory) -> Lent {
        let records = pool.records[..usize::from(pool.count)].to_vec();
        Lent { records, keys: Keys::of(&pool.records), directory }
    }
}

pub struct Form {
    pub name: &'static str,
    pub agrees: fn(&Lent) -> bool,
}

/// The form of library and baseline first.
pub const FORMS: [Form; 5] = [
    Form { name: "rows of heads, pages in a table", agrees: by_rows },
    Form { name: "rows of heads, pages in records", agrees: by_rows_of_records },
    Form { name: "frames that are heads", agrees: by_head_frames },
    Form { name: "frames, each chain once", agrees: by_frames },
    Form { name: "heads, one by one", agrees: by_heads },
];

fn link_of(frame: usize) -> usize {
    BUCKETS + frame
}

#[inline(never)]
fn by_rows(lent: &Lent) -> bool {
    agrees(&lent.keys, &lent.directory)
}

#[inline(never)]
fn by_rows_of_records(lent: &Lent) -> bool {
    let mut awaited = [NOWHERE; MOST_FRAMES];
    for (chain, record) in awaited.iter_mut().zip(&lent.records) {
        *chain = if record.is_used() { record.page.0 % NOWHERE } else { NOWHERE };
    }
    gives(&lent.directory, awaited)
}

/// Whether a byte leads along occupied frames of a chain to its end, none of which was met before. They are met then.
#[inline(always)]
fn walk(lent: &Lent, bucket: u16, mut byte: u8, met: &mut u64) -> bool {
    while byte != 0 {
        let entry = usize::from(byte - 1);
        let fits = |record: &FrameRecord| record.is_used() && record.page.0 % NOWHERE == bucket;
        if !lent.records.get(entry).is_some_and(fits) || *met >> entry & 1 == 1 {
            return false;
        }
        *met |= 1 << entry;
        byte = lent.directory[link_of(entry)];
    }
    true
}

/// Each occupied frame that is its chain's head is met, and so are those that its links lead to, occupied ones of its chain that
/// weren't met before. One byte leads to each that is met, and these are all that are occupied.
#[inline(never)]
fn by_head_frames(lent: &Lent) -> bool {
    let (records, directory) = (&lent.records, &lent.directory);
    let (mut used, mut met) = (0u64, 0u64);
    for (frame, record) in records.iter().enumerate().filter(|(_, record)| record.is_used()) {
        used |= 1 << frame;
        let bucket = record.page.0 % NOWHERE;
        if usize::from(directory[usize::from(bucket)]) == frame + 1 {
            met |= 1 << frame;
            if !walk(lent, bucket, directory[link_of(frame)], &mut met) {
                return false;
            }
        }
    }
    met == used && bytes_set(directory) == met.count_ones()
}

/// How many bytes aren't 0: fewer than 256.
fn bytes_set(directory: &Directory) -> u32 {
    directory.iter().fold(0u8, |count, byte| count + u8::from(*byte != 0)).into()
}

/// From each occupied frame that wasn't met, the whole chain of its page.
#[inline(never)]
fn by_frames(lent: &Lent) -> bool {
    let (records, directory, mut met) = (&lent.records, &lent.directory, 0u64);
    for (frame, record) in records.iter().enumerate().filter(|(_, record)| record.is_used()) {
        if met >> frame & 1 == 0 {
            let bucket = record.page.0 % NOWHERE;
            let fits = walk(lent, bucket, directory[usize::from(bucket)], &mut met);
            if !fits || met >> frame & 1 == 0 {
                return false;
            }
        }
    }
    bytes_set(directory) == met.count_ones()
}

/// Head by head, the page of each entry by its record.
#[inline(never)]
fn by_heads(lent: &Lent) -> bool {
    let (records, directory, mut met) = (&lent.records, &lent.directory, 0u64);
    for (bucket, head) in (0..).zip(&directory[..BUCKETS]) {
        if !walk(lent, bucket, *head, &mut met) {
            return false;
        }
    }
    (0..MOST_FRAMES).all(|frame| {
        let used = records.get(frame).is_some_and(|record| record.is_used());
        if used {
            met >> frame & 1 == 1
        } else {
            directory[link_of(frame)] == 0
        }
    })
}
