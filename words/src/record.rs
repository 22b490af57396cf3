//! The listing's record: 16 bytes with the call and its arguments (document 01, "Call listing").

/// Bytes of a record.
pub const SIZE: usize = 16;
/// Where the data starts, and the most bytes of it.
pub const DATA_START: usize = 7;
pub const DATA_MOST: usize = SIZE - DATA_START;

pub type Record = [u8; SIZE];

/// A handle: a frame index and a page number.
#[derive(Clone, Copy, Debug, PartialEq, Eq)]
pub struct Handle {
    pub frame: u8,
    pub page: u16,
}

/// A call that a record can make.
#[derive(Clone, Debug, PartialEq, Eq)]
pub enum Call {
    Root,
    Fix { slot: u8, handle: Handle },
    Unfix { handle: Handle },
    Write { offset: u8, data: Vec<u8>, handle: Handle },
    Link { page: u16, slot: u8, handle: Handle },
    Unlink { slot: u8, handle: Handle },
    Evict { page: u16 },
    Settle,
    Find { page: u16 },
}

/// The record that makes a call; bytes that the call doesn't use are 0.
pub fn encode(call: &Call) -> Record {
    let mut bytes = [0; SIZE];
    match call {
        Call::Root => bytes[0] = 1,
        Call::Fix { slot, handle } => {
            bytes[0] = 2;
            put_handle(&mut bytes, *handle);
            bytes[4] = *slot;
        }
        Call::Unfix { handle } => {
            bytes[0] = 3;
            put_handle(&mut bytes, *handle);
        }
        Call::Write { offset, data, handle } => {
            bytes[0] = 4;
            put_handle(&mut bytes, *handle);
            bytes[5] = *offset;
            bytes[6] = data.len() as u8;
            bytes[DATA_START..DATA_START + data.len()].copy_from_slice(data);
        }
        Call::Link { page, slot, handle } => {
            bytes[0] = 5;
            bytes[1] = handle.frame;
            put_page(&mut bytes, 2, *page);
            bytes[4] = *slot;
            put_page(&mut bytes, DATA_START, handle.page);
        }
        Call::Unlink { slot, handle } => {
            bytes[0] = 6;
            put_handle(&mut bytes, *handle);
            bytes[4] = *slot;
        }
        Call::Evict { page } => {
            bytes[0] = 7;
            put_page(&mut bytes, 2, *page);
        }
        Call::Settle => bytes[0] = 8,
        Call::Find { page } => {
            bytes[0] = 9;
            put_page(&mut bytes, 2, *page);
        }
    }
    bytes
}

/// The call that a record makes, whatever stands in the bytes that it doesn't use; none for one that rule 17 refuses.
pub fn call_of(bytes: &Record) -> Option<Call> {
    let handle = Handle { frame: bytes[1], page: page_at(bytes, 2) };
    let page = page_at(bytes, 2);
    let slot = bytes[4];
    let data = bytes.get(DATA_START..DATA_START + usize::from(bytes[6]))?;
    Some(match bytes[0] {
        1 => Call::Root,
        2 => Call::Fix { slot, handle },
        3 => Call::Unfix { handle },
        4 => Call::Write { offset: bytes[5], data: data.to_vec(), handle },
        5 => {
            let handle = Handle { frame: bytes[1], page: page_at(bytes, DATA_START) };
            Call::Link { page, slot, handle }
        }
        6 => Call::Unlink { slot, handle },
        7 => Call::Evict { page },
        8 => Call::Settle,
        9 => Call::Find { page },
        _ => return None,
    })
}

/// The call of a record, where [`encode`] makes just this record of it; none for a record that
/// rule 17 refuses or that has a byte set which its call doesn't use.
pub fn decode(bytes: &Record) -> Option<Call> {
    call_of(bytes).filter(|call| encode(call) == *bytes)
}

/// The records of some bytes. "A part record at the end is dropped."
pub fn records_of(bytes: &[u8]) -> Vec<Record> {
    bytes.chunks_exact(SIZE).map(|record| record.try_into().expect("a chunk of a record's size")).collect()
}

fn put_handle(bytes: &mut Record, handle: Handle) {
    bytes[1] = handle.frame;
    put_page(bytes, 2, handle.page);
}

fn put_page(bytes: &mut Record, at: usize, page: u16) {
    bytes[at..at + 2].copy_from_slice(&page.to_le_bytes());
}

fn page_at(bytes: &Record, at: usize) -> u16 {
    u16::from_le_bytes([bytes[at], bytes[at + 1]])
}
