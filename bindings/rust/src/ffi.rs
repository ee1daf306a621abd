//! The calls of include/itzahuemo.h, over slices. Each answers 0 or the number of its refusal.

// What the calls answer.
pub(crate) const HEADER_MORE: u64 = 1;
pub(crate) const HEADER_DAMAGED: u64 = 2;
pub(crate) const SPACE: u64 = 1;
pub(crate) const FORMED: u64 = 1;
pub(crate) const FLUSH_FRAME: u64 = 2;
pub(crate) const REASON_LOST: u64 = 1;
pub(crate) const REASON_POINTER: u64 = 2;
pub(crate) const REASON_DAMAGED: u64 = 3;
pub(crate) const STEP_DAMAGED: u64 = 3;
pub(crate) const STEP_SPENT: u64 = 4;
pub(crate) const IN_FRAME: u64 = 1;
pub(crate) const PASS: u64 = 1;
pub(crate) const NO_PATH: u64 = 1;

/// The part of a slice that a call answered by its start and length.
pub(crate) fn part(octets: &[u8], start: u64, length: u64) -> &[u8] {
    &octets[start as usize..][..length as usize]
}

// A slice is a pointer and a length.
extern "C" {
    fn itz_read_header(
        limit: u64,
        octets: *const u8,
        octets_len: usize,
        answer: *mut u64,
        answer_len: usize,
    ) -> u64;

    fn itz_well_formed(
        limit: u64,
        packet: *const u8,
        packet_len: usize,
        answer: *mut u64,
        answer_len: usize,
    ) -> u64;

    fn itz_wrap(
        limit: u64,
        protocol: u64,
        extension: u64,
        data: *const u8,
        data_len: usize,
        packet: *mut u8,
        packet_len: usize,
        answer: *mut u64,
        answer_len: usize,
    ) -> u64;

    fn itz_unwrap(
        limit: u64,
        packet: *const u8,
        packet_len: usize,
        answer: *mut u64,
        answer_len: usize,
    ) -> u64;

    fn itz_unit_part(
        unwrapped: *const u64,
        unwrapped_len: usize,
        packet: *const u8,
        packet_len: usize,
        answer: *mut u64,
        answer_len: usize,
    ) -> u64;

    fn itz_read_space(
        octets: *const u8,
        octets_len: usize,
        answer: *mut u64,
        answer_len: usize,
    ) -> u64;

    fn itz_write_space(
        header: *const u64,
        header_len: usize,
        octets: *mut u8,
        octets_len: usize,
    ) -> u64;

    fn itz_mux_begin(record: *mut u64, record_len: usize) -> u64;

    fn itz_mux_put(
        settings: *const u64,
        settings_len: usize,
        record: *mut u64,
        record_len: usize,
        packet: *const u8,
        packet_len: usize,
        frame: *mut u8,
        frame_len: usize,
        answer: *mut u64,
        answer_len: usize,
    ) -> u64;

    fn itz_mux_flush(
        settings: *const u64,
        settings_len: usize,
        record: *mut u64,
        record_len: usize,
        frame: *mut u8,
        frame_len: usize,
        answer: *mut u64,
        answer_len: usize,
    ) -> u64;

    fn itz_mux_idle(
        settings: *const u64,
        settings_len: usize,
        record: *mut u64,
        record_len: usize,
        frame: *mut u8,
        frame_len: usize,
    ) -> u64;

    fn itz_extractor_enter(
        settings: *const u64,
        settings_len: usize,
        record: *mut u64,
        record_len: usize,
        store: *const u8,
        store_len: usize,
        frame: *const u8,
        frame_len: usize,
        answer: *mut u64,
        answer_len: usize,
    ) -> u64;

    fn itz_extractor_step(
        settings: *const u64,
        settings_len: usize,
        record: *mut u64,
        record_len: usize,
        store: *mut u8,
        store_len: usize,
        frame: *const u8,
        frame_len: usize,
        answer: *mut u64,
        answer_len: usize,
    ) -> u64;

    fn itz_show(
        step: *const u64,
        step_len: usize,
        frame: *const u8,
        frame_len: usize,
        store: *const u8,
        store_len: usize,
        answer: *mut u64,
        answer_len: usize,
    ) -> u64;

    fn itz_judge_frame(
        settings: *const u64,
        settings_len: usize,
        record: *mut u64,
        record_len: usize,
        store: *mut u8,
        store_len: usize,
        frame: *const u8,
        frame_len: usize,
    ) -> u64;

    fn itz_judge_tape(
        settings: *const u64,
        settings_len: usize,
        record: *mut u64,
        record_len: usize,
        store: *mut u8,
        store_len: usize,
        tape: *const u8,
        tape_len: usize,
    ) -> u64;

    fn itz_judge_close(
        settings: *const u64,
        settings_len: usize,
        record: *const u64,
        record_len: usize,
        store: *const u8,
        store_len: usize,
        answer: *mut u64,
        answer_len: usize,
    ) -> u64;

    fn itz_bits_write(
        settings: *const u64,
        settings_len: usize,
        record: *mut u64,
        record_len: usize,
        bits: *const u8,
        bits_len: usize,
        number: u64,
        frame: *mut u8,
        frame_len: usize,
    ) -> u64;

    fn itz_bits_read(
        settings: *const u64,
        settings_len: usize,
        record: *mut u64,
        record_len: usize,
        frame: *const u8,
        frame_len: usize,
        answer: *mut u64,
        answer_len: usize,
    ) -> u64;

    fn itz_relay_load(
        entries: *const u64,
        entries_len: usize,
        table: *mut u64,
        table_len: usize,
    ) -> u64;

    fn itz_relay_route(
        limit: u64,
        table: *const u64,
        table_len: usize,
        packet: *const u8,
        packet_len: usize,
        destinations: *mut u8,
        destinations_len: usize,
        answer: *mut u64,
        answer_len: usize,
    ) -> u64;
}

// Safety, below: every pointer comes from a slice that lives through the call, with that slice's own length; none is null, and what
// may be written overlaps nothing, as Rust's references say.

pub(crate) fn read_header(limit: u64, octets: &[u8], answer: &mut [u64]) -> u64 {
    unsafe {
        itz_read_header(limit, octets.as_ptr(), octets.len(), answer.as_mut_ptr(), answer.len())
    }
}

pub(crate) fn well_formed(limit: u64, packet: &[u8], answer: &mut [u64]) -> u64 {
    unsafe {
        itz_well_formed(limit, packet.as_ptr(), packet.len(), answer.as_mut_ptr(), answer.len())
    }
}

pub(crate) fn wrap(
    limit: u64,
    protocol: u64,
    extension: u64,
    data: &[u8],
    packet: &mut [u8],
    answer: &mut [u64],
) -> u64 {
    unsafe {
        itz_wrap(
            limit,
            protocol,
            extension,
            data.as_ptr(),
            data.len(),
            packet.as_mut_ptr(),
            packet.len(),
            answer.as_mut_ptr(),
            answer.len(),
        )
    }
}

pub(crate) fn unwrap(limit: u64, packet: &[u8], answer: &mut [u64]) -> u64 {
    unsafe { itz_unwrap(limit, packet.as_ptr(), packet.len(), answer.as_mut_ptr(), answer.len()) }
}

pub(crate) fn unit_part(unwrapped: &[u64], packet: &[u8], answer: &mut [u64]) -> u64 {
    unsafe {
        itz_unit_part(
            unwrapped.as_ptr(),
            unwrapped.len(),
            packet.as_ptr(),
            packet.len(),
            answer.as_mut_ptr(),
            answer.len(),
        )
    }
}

pub(crate) fn read_space(octets: &[u8], answer: &mut [u64]) -> u64 {
    unsafe { itz_read_space(octets.as_ptr(), octets.len(), answer.as_mut_ptr(), answer.len()) }
}

pub(crate) fn write_space(header: &[u64], octets: &mut [u8]) -> u64 {
    unsafe { itz_write_space(header.as_ptr(), header.len(), octets.as_mut_ptr(), octets.len()) }
}

pub(crate) fn mux_begin(record: &mut [u64]) -> u64 {
    unsafe { itz_mux_begin(record.as_mut_ptr(), record.len()) }
}

pub(crate) fn mux_put(
    settings: &[u64],
    record: &mut [u64],
    packet: &[u8],
    frame: &mut [u8],
    answer: &mut [u64],
) -> u64 {
    unsafe {
        itz_mux_put(
            settings.as_ptr(),
            settings.len(),
            record.as_mut_ptr(),
            record.len(),
            packet.as_ptr(),
            packet.len(),
            frame.as_mut_ptr(),
            frame.len(),
            answer.as_mut_ptr(),
            answer.len(),
        )
    }
}

pub(crate) fn mux_flush(
    settings: &[u64],
    record: &mut [u64],
    frame: &mut [u8],
    answer: &mut [u64],
) -> u64 {
    unsafe {
        itz_mux_flush(
            settings.as_ptr(),
            settings.len(),
            record.as_mut_ptr(),
            record.len(),
            frame.as_mut_ptr(),
            frame.len(),
            answer.as_mut_ptr(),
            answer.len(),
        )
    }
}

pub(crate) fn mux_idle(settings: &[u64], record: &mut [u64], frame: &mut [u8]) -> u64 {
    unsafe {
        itz_mux_idle(
            settings.as_ptr(),
            settings.len(),
            record.as_mut_ptr(),
            record.len(),
            frame.as_mut_ptr(),
            frame.len(),
        )
    }
}

pub(crate) fn extractor_enter(
    settings: &[u64],
    record: &mut [u64],
    store: &[u8],
    frame: &[u8],
    answer: &mut [u64],
) -> u64 {
    unsafe {
        itz_extractor_enter(
            settings.as_ptr(),
            settings.len(),
            record.as_mut_ptr(),
            record.len(),
            store.as_ptr(),
            store.len(),
            frame.as_ptr(),
            frame.len(),
            answer.as_mut_ptr(),
            answer.len(),
        )
    }
}

pub(crate) fn extractor_step(
    settings: &[u64],
    record: &mut [u64],
    store: &mut [u8],
    frame: &[u8],
    answer: &mut [u64],
) -> u64 {
    unsafe {
        itz_extractor_step(
            settings.as_ptr(),
            settings.len(),
            record.as_mut_ptr(),
            record.len(),
            store.as_mut_ptr(),
            store.len(),
            frame.as_ptr(),
            frame.len(),
            answer.as_mut_ptr(),
            answer.len(),
        )
    }
}

pub(crate) fn show(step: &[u64], frame: &[u8], store: &[u8], answer: &mut [u64]) -> u64 {
    unsafe {
        itz_show(
            step.as_ptr(),
            step.len(),
            frame.as_ptr(),
            frame.len(),
            store.as_ptr(),
            store.len(),
            answer.as_mut_ptr(),
            answer.len(),
        )
    }
}

pub(crate) fn judge_frame(
    settings: &[u64],
    record: &mut [u64],
    store: &mut [u8],
    frame: &[u8],
) -> u64 {
    unsafe {
        itz_judge_frame(
            settings.as_ptr(),
            settings.len(),
            record.as_mut_ptr(),
            record.len(),
            store.as_mut_ptr(),
            store.len(),
            frame.as_ptr(),
            frame.len(),
        )
    }
}

pub(crate) fn judge_tape(
    settings: &[u64],
    record: &mut [u64],
    store: &mut [u8],
    tape: &[u8],
) -> u64 {
    unsafe {
        itz_judge_tape(
            settings.as_ptr(),
            settings.len(),
            record.as_mut_ptr(),
            record.len(),
            store.as_mut_ptr(),
            store.len(),
            tape.as_ptr(),
            tape.len(),
        )
    }
}

pub(crate) fn judge_close(
    settings: &[u64],
    record: &[u64],
    store: &[u8],
    answer: &mut [u64],
) -> u64 {
    unsafe {
        itz_judge_close(
            settings.as_ptr(),
            settings.len(),
            record.as_ptr(),
            record.len(),
            store.as_ptr(),
            store.len(),
            answer.as_mut_ptr(),
            answer.len(),
        )
    }
}

pub(crate) fn bits_write(
    settings: &[u64],
    record: &mut [u64],
    bits: &[u8],
    number: u64,
    frame: &mut [u8],
) -> u64 {
    unsafe {
        itz_bits_write(
            settings.as_ptr(),
            settings.len(),
            record.as_mut_ptr(),
            record.len(),
            bits.as_ptr(),
            bits.len(),
            number,
            frame.as_mut_ptr(),
            frame.len(),
        )
    }
}

pub(crate) fn bits_read(
    settings: &[u64],
    record: &mut [u64],
    frame: &[u8],
    answer: &mut [u64],
) -> u64 {
    unsafe {
        itz_bits_read(
            settings.as_ptr(),
            settings.len(),
            record.as_mut_ptr(),
            record.len(),
            frame.as_ptr(),
            frame.len(),
            answer.as_mut_ptr(),
            answer.len(),
        )
    }
}

pub(crate) fn relay_load(entries: &[u64], table: &mut [u64]) -> u64 {
    unsafe { itz_relay_load(entries.as_ptr(), entries.len(), table.as_mut_ptr(), table.len()) }
}

pub(crate) fn relay_route(
    limit: u64,
    table: &[u64],
    packet: &[u8],
    destinations: &mut [u8],
    answer: &mut [u64],
) -> u64 {
    unsafe {
        itz_relay_route(
            limit,
            table.as_ptr(),
            table.len(),
            packet.as_ptr(),
            packet.len(),
            destinations.as_mut_ptr(),
            destinations.len(),
            answer.as_mut_ptr(),
            answer.len(),
        )
    }
}
