//! The verified receive engine, as safe functions over its static library.
//!
//! They take numbers and slices in the packed form of `docs/EMBEDDING.md`, keep nothing between calls
//! and allocate nothing. A refusal is given by its number and leaves everything lent as it was.

/// The words of a state.
pub const STATE_WORDS: usize = 1_035;
/// The words of a call of a run.
pub const CALL_WORDS: usize = 8;
/// The words of an answer to a call.
pub const ANSWER_WORDS: usize = 8;
/// The words of a packet's values.
pub const VALUE_WORDS: usize = 19;
/// The least reply buffer, which takes a CTS.
pub const REPLY_LENGTH: usize = 24;

/// A refusal's number.
pub type Refusal = usize;

/// The library's functions. Each slice crosses as a pointer and a length. They ask of their caller
/// that each pointer is valid for its length and that no slice lent to be written overlaps another,
/// which references guarantee, and nothing else.
mod library {
    extern "C" {
        pub fn quagfeather_set_up(
            n: usize,
            area: usize,
            limit: usize,
            arena: *const u8,
            arena_length: usize,
            map: *mut u64,
            map_length: usize,
            state: *mut u64,
            state_length: usize,
        ) -> usize;

        pub fn quagfeather_run(
            state: *mut u64,
            state_length: usize,
            arena: *mut u8,
            arena_length: usize,
            map: *mut u64,
            map_length: usize,
            calls: *const u64,
            calls_length: usize,
            bytes: *const u8,
            bytes_length: usize,
            replies: *mut u8,
            replies_length: usize,
            answers: *mut u64,
            answers_length: usize,
        ) -> usize;

        pub fn quagfeather_read(
            packet: *const u8,
            packet_length: usize,
            values: *mut u64,
            values_length: usize,
        ) -> usize;

        pub fn quagfeather_write(
            values: *const u64,
            values_length: usize,
            raw_address: *const u8,
            raw_address_length: usize,
            data: *const u8,
            data_length: usize,
            out: *mut u8,
            out_length: usize,
            length: *mut usize,
        ) -> usize;

        pub fn quagfeather_overlap_test(
            map: *const u64,
            map_length: usize,
            at: usize,
            count: usize,
        ) -> usize;

        pub fn quagfeather_mark_untested(
            map: *mut u64,
            map_length: usize,
            at: usize,
            count: usize,
        ) -> usize;

        pub fn quagfeather_mark(map: *mut u64, map_length: usize, at: usize, count: usize)
            -> usize;

        pub fn quagfeather_replay(
            trace: *const u8,
            trace_length: usize,
            budget: usize,
            arena: *mut u8,
            arena_length: usize,
            map: *mut u64,
            map_length: usize,
            reply: *mut u8,
            reply_length: usize,
            text: *mut u8,
            text_length: usize,
        ) -> usize;
    }
}

fn taken_unless(refusal: Refusal) -> Result<(), Refusal> {
    match refusal {
        0 => Ok(()),
        number => Err(number),
    }
}

/// Writes a fresh state for `n` peers, areas of `area` bytes and packets of at most `limit` bytes,
/// and clears the map.
pub fn set_up(
    n: usize,
    area: usize,
    limit: usize,
    arena: &[u8],
    map: &mut [u64],
    state: &mut [u64],
) -> Result<(), Refusal> {
    // SAFETY: pointers and lengths are those of the references.
    taken_unless(unsafe {
        library::quagfeather_set_up(
            n,
            area,
            limit,
            arena.as_ptr(),
            arena.len(),
            map.as_mut_ptr(),
            map.len(),
            state.as_mut_ptr(),
            state.len(),
        )
    })
}

/// Runs calls and gives how many it ran: all that `calls` and `answers` have words for, up to the
/// first that is none.
pub fn run(
    state: &mut [u64],
    arena: &mut [u8],
    map: &mut [u64],
    calls: &[u64],
    bytes: &[u8],
    replies: &mut [u8],
    answers: &mut [u64],
) -> usize {
    // SAFETY: pointers and lengths are those of the references.
    unsafe {
        library::quagfeather_run(
            state.as_mut_ptr(),
            state.len(),
            arena.as_mut_ptr(),
            arena.len(),
            map.as_mut_ptr(),
            map.len(),
            calls.as_ptr(),
            calls.len(),
            bytes.as_ptr(),
            bytes.len(),
            replies.as_mut_ptr(),
            replies.len(),
            answers.as_mut_ptr(),
            answers.len(),
        )
    }
}

/// Reads a packet into the first 19 of `values`.
pub fn read(packet: &[u8], values: &mut [u64]) -> Result<(), Refusal> {
    // SAFETY: pointers and lengths are those of the references.
    taken_unless(unsafe {
        library::quagfeather_read(
            packet.as_ptr(),
            packet.len(),
            values.as_mut_ptr(),
            values.len(),
        )
    })
}

/// Writes the packet of these values to the front of `out`, and its length to `length`.
pub fn write(
    values: &[u64],
    raw_address: &[u8],
    data: &[u8],
    out: &mut [u8],
    length: &mut usize,
) -> Result<(), Refusal> {
    // SAFETY: pointers and lengths are those of the references.
    taken_unless(unsafe {
        library::quagfeather_write(
            values.as_ptr(),
            values.len(),
            raw_address.as_ptr(),
            raw_address.len(),
            data.as_ptr(),
            data.len(),
            out.as_mut_ptr(),
            out.len(),
            length,
        )
    })
}

/// Refuses a range of `count` bits of a map from `at` on of which one is set: the overlap test by itself.
pub fn overlap_test(map: &[u64], at: usize, count: usize) -> Result<(), Refusal> {
    // SAFETY: pointer and length are those of the reference.
    taken_unless(unsafe { library::quagfeather_overlap_test(map.as_ptr(), map.len(), at, count) })
}

/// Sets `count` bits of a map from `at` on, set already or not: marking by itself.
pub fn mark_untested(map: &mut [u64], at: usize, count: usize) -> Result<(), Refusal> {
    // SAFETY: pointer and length are those of the reference.
    taken_unless(unsafe {
        library::quagfeather_mark_untested(map.as_mut_ptr(), map.len(), at, count)
    })
}

/// Sets `count` bits of a map from `at` on, unless one of them is set already.
pub fn mark(map: &mut [u64], at: usize, count: usize) -> Result<(), Refusal> {
    // SAFETY: pointer and length are those of the reference.
    taken_unless(unsafe { library::quagfeather_mark(map.as_mut_ptr(), map.len(), at, count) })
}

/// Replays a trace, taking at most `budget` entries, and gives the length of the text written.
pub fn replay(
    trace: &[u8],
    budget: usize,
    arena: &mut [u8],
    map: &mut [u64],
    reply: &mut [u8],
    text: &mut [u8],
) -> usize {
    // SAFETY: pointers and lengths are those of the references.
    unsafe {
        library::quagfeather_replay(
            trace.as_ptr(),
            trace.len(),
            budget,
            arena.as_mut_ptr(),
            arena.len(),
            map.as_mut_ptr(),
            map.len(),
            reply.as_mut_ptr(),
            reply.len(),
            text.as_mut_ptr(),
            text.len(),
        )
    }
}
