//! Ticketmoss for hosts in Rust: the calls of `ticketmoss.h` over slices, which owe what the header asks of a caller by their types.
//! Bring it in with `#[path = "…/include/ticketmoss.rs"] mod ticketmoss;` and link `target/staticlib/libhost.a`.
#![allow(dead_code)]

/// The least bytes of a buffer for an answer line, and for a closing line; no line has more.
pub const ANSWER_BYTES: usize = 32;
pub const CLOSING_BYTES: usize = 96;
/// The bytes of a line that a host has to hold.
pub const LINE_BYTES: usize = 161;
/// The bytes of an order message and of a house message, and the words in which a message is read.
pub const MESSAGE_BYTES: usize = 131;
pub const ORDER_WORDS: usize = 8;

/// One of the documents' numbers with which a call refuses: 5, 21, 22, 23, 41, 42 or 43 (`ticketmoss.h` names them). Nothing was changed.
#[derive(Clone, Copy, Debug, PartialEq, Eq)]
pub struct Refused(pub u8);

/// How far a block of lines was taken.
#[derive(Clone, Copy, Debug, PartialEq, Eq)]
pub struct Taken {
    /// The lines that were taken.
    pub lines: usize,
    /// The bytes that these lines have.
    pub bytes: usize,
    /// The bytes of their answer lines.
    pub written: usize,
}

mod calls {
    extern "C" {
        pub fn ticketmoss_words(places: usize) -> usize;
        pub fn ticketmoss_places(words: usize) -> usize;
        pub fn ticketmoss_fresh(words: *mut u64, count: usize) -> i64;
        pub fn ticketmoss_state(words: *const u64, count: usize) -> i64;
        pub fn ticketmoss_record(
            words: *mut u64,
            count: usize,
            line: *const u8,
            length: usize,
            buffer: *mut u8,
            size: usize,
        ) -> i64;
        pub fn ticketmoss_block(
            words: *mut u64,
            count: usize,
            lines: *const u8,
            length: usize,
            buffer: *mut u8,
            size: usize,
            taken: *mut [u64; 2],
        ) -> i64;
        pub fn ticketmoss_closing(
            words: *const u64,
            count: usize,
            place: usize,
            buffer: *mut u8,
            size: usize,
        ) -> i64;
        pub fn ticketmoss_order_write(
            line: *const u8,
            length: usize,
            house: *const u8,
            house_length: usize,
            buffer: *mut u8,
            size: usize,
        ) -> i64;
        pub fn ticketmoss_order_read(
            message: *const u8,
            length: usize,
            fields: *mut u64,
            count: usize,
        ) -> i64;
    }
}

fn told(answer: i64) -> Result<usize, Refused> {
    if answer < 0 {
        Err(Refused(-answer as u8))
    } else {
        Ok(answer as usize)
    }
}

/// How many words a room of so many places needs; 0 where no memory has so many (above 65,535).
pub fn words(places: usize) -> usize {
    unsafe { calls::ticketmoss_words(places) }
}

/// How many places so many words have room for.
pub fn places(words: usize) -> usize {
    unsafe { calls::ticketmoss_places(words) }
}

/// Makes a fresh state of the lent words, or refuses with 23.
pub fn fresh(words: &mut [u64]) -> Result<(), Refused> {
    told(unsafe { calls::ticketmoss_fresh(words.as_mut_ptr(), words.len()) }).map(|_| ())
}

/// Whether the lent words meet every state rule, or 22.
pub fn state(words: &[u64]) -> Result<(), Refused> {
    told(unsafe { calls::ticketmoss_state(words.as_ptr(), words.len()) }).map(|_| ())
}

/// Judges one record, lent as its line with its LF: how many bytes of its answer line stand at the buffer's start, or 21 or 22.
pub fn record(words: &mut [u64], line: &[u8], buffer: &mut [u8]) -> Result<usize, Refused> {
    told(unsafe {
        calls::ticketmoss_record(
            words.as_mut_ptr(),
            words.len(),
            line.as_ptr(),
            line.len(),
            buffer.as_mut_ptr(),
            buffer.len(),
        )
    })
}

/// Judges the lines that end in the lent bytes, one after the other, with their answer lines from the buffer's start on: how far they were taken, or
/// 21 or 22. It stops before the first line for which fewer than `ANSWER_BYTES` are left, and before a last part without LF; the state rules are
/// tried once. `ticketmoss.h` says how to use it.
pub fn block(words: &mut [u64], lines: &[u8], buffer: &mut [u8]) -> Result<Taken, Refused> {
    let mut taken = [0; 2];
    let written = told(unsafe {
        calls::ticketmoss_block(
            words.as_mut_ptr(),
            words.len(),
            lines.as_ptr(),
            lines.len(),
            buffer.as_mut_ptr(),
            buffer.len(),
            &mut taken,
        )
    })?;
    Ok(Taken {
        // no more than the bytes that were lent
        lines: taken[0] as usize,
        bytes: taken[1] as usize,
        written,
    })
}

/// The closing line of the group at a place in listing order, from 0: its bytes at the buffer's start, or 21, 22, or 5 where there is none.
pub fn closing(words: &[u64], place: usize, buffer: &mut [u8]) -> Result<usize, Refused> {
    told(unsafe {
        calls::ticketmoss_closing(
            words.as_ptr(),
            words.len(),
            place,
            buffer.as_mut_ptr(),
            buffer.len(),
        )
    })
}

/// Writes the N of a line, lent with its LF, as a New Order Request at the buffer's start, with the house message's values in the fields that N
/// does not carry: the bytes written, or 41, 42 or 43.
pub fn order_write(line: &[u8], house: &[u8], buffer: &mut [u8]) -> Result<usize, Refused> {
    told(unsafe {
        calls::ticketmoss_order_write(
            line.as_ptr(),
            line.len(),
            house.as_ptr(),
            house.len(),
            buffer.as_mut_ptr(),
            buffer.len(),
        )
    })
}

/// Reads a New Order Request: the N's fields as eight words at the start of `fields`, in the order that `ticketmoss.h` says; how many words were
/// written, or 41, 42 or 43.
pub fn order_read(message: &[u8], fields: &mut [u64]) -> Result<usize, Refused> {
    told(unsafe {
        calls::ticketmoss_order_read(
            message.as_ptr(),
            message.len(),
            fields.as_mut_ptr(),
            fields.len(),
        )
    })
}
