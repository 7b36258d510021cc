//! The twenty-one functions of the static library. All that is `unsafe` in this crate stands here: each slice goes over as
//! its pointer and its length, each number to be told as a pointer. The functions have no requirements; that they stay inside the
//! slices is proved, and so is every value that they leave there. A function returns 0 or the number of the refusal,
//! and with a refusal the numbers to be told keep their values. Where tests 1 to 4, 1 to 6 or 1 to 7 are named, 14 is among them, right
//! after 1.
#![allow(unsafe_code)]

#[cfg(not(all(target_arch = "x86_64", target_os = "linux")))]
compile_error!("the static library links into x86-64 programs on Linux only");

extern "C" {
    fn yeldmur_read_sheet(sheet: *const u8, sheet_bytes: usize) -> u32;
    fn yeldmur_write_sheet(
        links: *const u32,
        links_words: usize,
        nodes: *const u32,
        nodes_words: usize,
        start: u32,
        result: *mut u8,
        result_bytes: usize,
        size: *mut u64,
    ) -> u32;
    fn yeldmur_write_sheet_in(
        links: *const u32,
        links_words: usize,
        nodes: *const u32,
        nodes_words: usize,
        start: u32,
        unit: u32,
        result: *mut u8,
        result_bytes: usize,
        size: *mut u64,
    ) -> u32;
    fn yeldmur_unit(sheet: *const u8, sheet_bytes: usize, unit: *mut u32) -> u32;
    fn yeldmur_shortest_distance(
        sheet: *const u8,
        sheet_bytes: usize,
        work: *mut u32,
        work_words: usize,
        result: *mut u8,
        result_bytes: usize,
        values: *mut u32,
    ) -> u32;
    fn yeldmur_shortest_path(
        sheet: *const u8,
        sheet_bytes: usize,
        n: u32,
        work: *mut u32,
        work_words: usize,
        result: *mut u8,
        result_bytes: usize,
        states: *mut u32,
        links: *mut u32,
        taken: *mut u32,
    ) -> u32;
    fn yeldmur_areas(
        sheet: *const u8,
        sheet_bytes: usize,
        n: u32,
        slots: *mut u64,
        bytes: *mut u64,
    ) -> u32;
    fn yeldmur_areas_of(
        nodes: u32,
        links: u32,
        finals: u32,
        n: u32,
        slots: *mut u64,
        bytes: *mut u64,
    ) -> u32;
    fn yeldmur_rows_to_sheet(
        text: *const u8,
        text_bytes: usize,
        result: *mut u8,
        result_bytes: usize,
        size: *mut u64,
    ) -> u32;
    fn yeldmur_sheet_to_rows(
        sheet: *const u8,
        sheet_bytes: usize,
        result: *mut u8,
        result_bytes: usize,
        size: *mut u64,
    ) -> u32;
    fn yeldmur_rows_sheet_bytes(text: *const u8, text_bytes: usize, bytes: *mut u64) -> u32;
    fn yeldmur_sheet_rows_bytes(sheet: *const u8, sheet_bytes: usize, bytes: *mut u64) -> u32;
    fn yeldmur_two_probes(
        first: *const u8,
        first_bytes: usize,
        second: *const u8,
        second_bytes: usize,
        result: *mut u8,
        result_bytes: usize,
        size: *mut u64,
    ) -> u32;
    fn yeldmur_split(
        sheet: *const u8,
        sheet_bytes: usize,
        c: u32,
        result: *mut u8,
        result_bytes: usize,
        first: *mut u32,
        second: *mut u32,
    ) -> u32;
    fn yeldmur_readings(
        result: *const u8,
        result_bytes: usize,
        n: u32,
        states: u32,
        links: u32,
        count: *mut u32,
    ) -> u32;
    fn yeldmur_reading(
        sheet: *const u8,
        sheet_bytes: usize,
        n: u32,
        result: *const u8,
        result_bytes: usize,
        states: u32,
        links: u32,
        k: u32,
        run: *mut u32,
        run_words: usize,
        count: *mut u32,
        cost: *mut i32,
        end: *mut u32,
    ) -> u32;
    fn yeldmur_distance(
        result: *const u8,
        result_bytes: usize,
        values: u32,
        node: u32,
        reached: *mut u32,
        cost: *mut i32,
    ) -> u32;
    fn yeldmur_distance_in(
        result: *const u8,
        result_bytes: usize,
        values: u32,
        node: u32,
        unit: u32,
        reached: *mut u32,
        cost: *mut i32,
    ) -> u32;
    fn yeldmur_sheet_counts(
        sheet: *const u8,
        sheet_bytes: usize,
        nodes: *mut u32,
        links: *mut u32,
        finals: *mut u32,
        start: *mut u32,
    ) -> u32;
    fn yeldmur_link(
        sheet: *const u8,
        sheet_bytes: usize,
        number: u32,
        ilabel: *mut u32,
        olabel: *mut u32,
        weight_bits: *mut u32,
        next: *mut u32,
    ) -> u32;
    fn yeldmur_node(
        sheet: *const u8,
        sheet_bytes: usize,
        number: u32,
        links: *mut u32,
        mark: *mut u32,
        weight_bits: *mut u32,
    ) -> u32;
}

/// Reads a sheet: tests 1 to 4.
pub fn read_sheet(sheet: &[u8]) -> u32 {
    // SAFETY: the pointer and the length are of one slice, lent for the call, that is only read.
    unsafe { yeldmur_read_sheet(sheet.as_ptr(), sheet.len()) }
}

/// Writes a sheet with the shorter trailer, of links, four words each, and nodes, three words each: tests 1 to 4, then 21.
pub fn write_sheet(
    links: &[u32],
    nodes: &[u32],
    start: u32,
    result: &mut [u8],
    size: &mut u64,
) -> u32 {
    // SAFETY: each pointer and length are of one slice, lent for the call; the two that are written to,
    // `result` and `size`, are lent mutably, so that they overlap nothing.
    unsafe {
        yeldmur_write_sheet(
            links.as_ptr(),
            links.len(),
            nodes.as_ptr(),
            nodes.len(),
            start,
            result.as_mut_ptr(),
            result.len(),
            size,
        )
    }
}

/// The same with the longer trailer, which says the unit: tests 1 to 4, where 14 is another unit than 64 and 256, then 21.
pub fn write_sheet_in(
    links: &[u32],
    nodes: &[u32],
    start: u32,
    unit: u32,
    result: &mut [u8],
    size: &mut u64,
) -> u32 {
    // SAFETY: each pointer and length are of one slice, lent for the call; the two that are written to,
    // `result` and `size`, are lent mutably, so that they overlap nothing.
    unsafe {
        yeldmur_write_sheet_in(
            links.as_ptr(),
            links.len(),
            nodes.as_ptr(),
            nodes.len(),
            start,
            unit,
            result.as_mut_ptr(),
            result.len(),
            size,
        )
    }
}

/// The unit of a sheet, 64 or 256: tests 1 to 4.
pub fn unit(sheet: &[u8], unit: &mut u32) -> u32 {
    // SAFETY: the pointer and the length are of one slice, lent for the call, that is only read; `unit`,
    // which is written to, is lent mutably, so that it overlaps nothing.
    unsafe { yeldmur_unit(sheet.as_ptr(), sheet.len(), unit) }
}

/// The distances of a sheet's nodes: tests 1 to 6, 20 and 21.
pub fn shortest_distance(
    sheet: &[u8],
    work: &mut [u32],
    result: &mut [u8],
    values: &mut u32,
) -> u32 {
    // SAFETY: each pointer and length are of one slice, lent for the call; `work`, `result` and `values`,
    // which are written to, are lent mutably, so that they overlap nothing.
    unsafe {
        yeldmur_shortest_distance(
            sheet.as_ptr(),
            sheet.len(),
            work.as_mut_ptr(),
            work.len(),
            result.as_mut_ptr(),
            result.len(),
            values,
        )
    }
}

/// The n cheapest readings of a sheet: tests 1 to 7, 20 and 21.
pub fn shortest_path(
    sheet: &[u8],
    n: u32,
    work: &mut [u32],
    result: &mut [u8],
    states: &mut u32,
    links: &mut u32,
    taken: &mut u32,
) -> u32 {
    // SAFETY: each pointer and length are of one slice, lent for the call; `work`, `result` and the three
    // numbers, which are written to, are lent mutably, so that they overlap nothing.
    unsafe {
        yeldmur_shortest_path(
            sheet.as_ptr(),
            sheet.len(),
            n,
            work.as_mut_ptr(),
            work.len(),
            result.as_mut_ptr(),
            result.len(),
            states,
            links,
            taken,
        )
    }
}

/// The work slots that a list for n needs, and bytes that are enough for its result: tests 1 to 7.
pub fn areas(sheet: &[u8], n: u32, slots: &mut u64, bytes: &mut u64) -> u32 {
    // SAFETY: the pointer and the length are of one slice, lent for the call, that is only read; `slots`
    // and `bytes`, which are written to, are lent mutably, so that they overlap nothing.
    unsafe { yeldmur_areas(sheet.as_ptr(), sheet.len(), n, slots, bytes) }
}

/// The same for every accepted sheet, of either trailer, with at most so many nodes, links and final nodes: tests 5 and 7 of these counts.
pub fn areas_of(
    nodes: u32,
    links: u32,
    finals: u32,
    n: u32,
    slots: &mut u64,
    bytes: &mut u64,
) -> u32 {
    // SAFETY: `slots` and `bytes`, which are written to, are lent mutably, so that they do not overlap.
    unsafe { yeldmur_areas_of(nodes, links, finals, n, slots, bytes) }
}

/// Turns text rows into a sheet with the shorter trailer: tests 8, 1, 4, then 21.
pub fn rows_to_sheet(text: &[u8], result: &mut [u8], size: &mut u64) -> u32 {
    // SAFETY: each pointer and length are of one slice, lent for the call; the two that are written to,
    // `result` and `size`, are lent mutably, so that they overlap nothing.
    unsafe {
        yeldmur_rows_to_sheet(
            text.as_ptr(),
            text.len(),
            result.as_mut_ptr(),
            result.len(),
            size,
        )
    }
}

/// Turns a sheet into text rows: tests 1 to 4, 9, then 21.
pub fn sheet_to_rows(sheet: &[u8], result: &mut [u8], size: &mut u64) -> u32 {
    // SAFETY: each pointer and length are of one slice, lent for the call; the two that are written to,
    // `result` and `size`, are lent mutably, so that they overlap nothing.
    unsafe {
        yeldmur_sheet_to_rows(
            sheet.as_ptr(),
            sheet.len(),
            result.as_mut_ptr(),
            result.len(),
            size,
        )
    }
}

/// The bytes of the sheet that text rows give: tests 8, 1 and 4.
pub fn rows_sheet_bytes(text: &[u8], bytes: &mut u64) -> u32 {
    // SAFETY: the pointer and the length are of one slice, lent for the call, that is only read; `bytes`,
    // which is written to, is lent mutably, so that it overlaps nothing.
    unsafe { yeldmur_rows_sheet_bytes(text.as_ptr(), text.len(), bytes) }
}

/// The bytes of the text rows that a sheet gives: tests 1 to 4 and 9.
pub fn sheet_rows_bytes(sheet: &[u8], bytes: &mut u64) -> u32 {
    // SAFETY: the pointer and the length are of one slice, lent for the call, that is only read; `bytes`,
    // which is written to, is lent mutably, so that it overlaps nothing.
    unsafe { yeldmur_sheet_rows_bytes(sheet.as_ptr(), sheet.len(), bytes) }
}

/// Writes the sheet of what two sheets both allow: tests 1 to 6 of the first, 1 to 6 of the second, whose 14 is also that its unit is
/// not the first's, then 10, 11, 12 and 21.
pub fn two_probes(first: &[u8], second: &[u8], result: &mut [u8], size: &mut u64) -> u32 {
    // SAFETY: each pointer and length are of one slice, lent for the call; the two that are written to, `result` and
    // `size`, are lent mutably, so that they overlap nothing. The two sheets are only read, and may be one.
    unsafe {
        yeldmur_two_probes(
            first.as_ptr(),
            first.len(),
            second.as_ptr(),
            second.len(),
            result.as_mut_ptr(),
            result.len(),
            size,
        )
    }
}

/// Writes the two parts of a sheet at node c: tests 1 to 6, then 13 and 21.
pub fn split(sheet: &[u8], c: u32, result: &mut [u8], first: &mut u32, second: &mut u32) -> u32 {
    // SAFETY: each pointer and length are of one slice, lent for the call; `result` and the two numbers,
    // which are written to, are lent mutably, so that they overlap nothing.
    unsafe {
        yeldmur_split(
            sheet.as_ptr(),
            sheet.len(),
            c,
            result.as_mut_ptr(),
            result.len(),
            first,
            second,
        )
    }
}

/// How many readings the result of a list for n holds, by the states and links that its call told: tests 7, then 30.
pub fn readings(result: &[u8], n: u32, states: u32, links: u32, count: &mut u32) -> u32 {
    // SAFETY: the pointer and the length are of one slice, lent for the call, that is only read; `count`,
    // which is written to, is lent mutably, so that it overlaps nothing.
    unsafe { yeldmur_readings(result.as_ptr(), result.len(), n, states, links, count) }
}

/// Reading k of the result of a list for n on this sheet, by the states and links that its call told: tests 1 to 7, then 30, 31, 30
/// and 21.
#[allow(clippy::too_many_arguments)] // the library's own
pub fn reading(
    sheet: &[u8],
    n: u32,
    result: &[u8],
    states: u32,
    links: u32,
    k: u32,
    run: &mut [u32],
    count: &mut u32,
    cost: &mut i32,
    end: &mut u32,
) -> u32 {
    // SAFETY: each pointer and length are of one slice, lent for the call; `run` and the three numbers,
    // which are written to, are lent mutably, so that they overlap nothing.
    unsafe {
        yeldmur_reading(
            sheet.as_ptr(),
            sheet.len(),
            n,
            result.as_ptr(),
            result.len(),
            states,
            links,
            k,
            run.as_mut_ptr(),
            run.len(),
            count,
            cost,
            end,
        )
    }
}

/// The distance of a node in sixty-fourths, from the result of the call for distances, which told `values`: tests 30, 31, then 30.
pub fn distance(result: &[u8], values: u32, node: u32, reached: &mut u32, cost: &mut i32) -> u32 {
    // SAFETY: the pointer and the length are of one slice, lent for the call, that is only read; `reached`
    // and `cost`, which are written to, are lent mutably, so that they overlap nothing.
    unsafe { yeldmur_distance(result.as_ptr(), result.len(), values, node, reached, cost) }
}

/// The same in this unit, the sheet's own: tests 14 for another than 64 and 256, then 30, 31 and 30.
pub fn distance_in(
    result: &[u8],
    values: u32,
    node: u32,
    unit: u32,
    reached: &mut u32,
    cost: &mut i32,
) -> u32 {
    // SAFETY: the pointer and the length are of one slice, lent for the call, that is only read; `reached`
    // and `cost`, which are written to, are lent mutably, so that they overlap nothing.
    unsafe {
        yeldmur_distance_in(
            result.as_ptr(),
            result.len(),
            values,
            node,
            unit,
            reached,
            cost,
        )
    }
}

/// The counts of a sheet, of nodes, links and final nodes, and its start: tests 1 to 4.
pub fn sheet_counts(
    sheet: &[u8],
    nodes: &mut u32,
    links: &mut u32,
    finals: &mut u32,
    start: &mut u32,
) -> u32 {
    // SAFETY: the pointer and the length are of one slice, lent for the call, that is only read; the four
    // numbers, which are written to, are lent mutably, so that they overlap nothing.
    unsafe { yeldmur_sheet_counts(sheet.as_ptr(), sheet.len(), nodes, links, finals, start) }
}

/// The fields of a link of a sheet that has passed tests 1 to 4: 31 past the last.
pub fn link(
    sheet: &[u8],
    number: u32,
    ilabel: &mut u32,
    olabel: &mut u32,
    weight_bits: &mut u32,
    next: &mut u32,
) -> u32 {
    // SAFETY: the pointer and the length are of one slice, lent for the call, that is only read; the four
    // numbers, which are written to, are lent mutably, so that they overlap nothing.
    unsafe {
        yeldmur_link(
            sheet.as_ptr(),
            sheet.len(),
            number,
            ilabel,
            olabel,
            weight_bits,
            next,
        )
    }
}

/// The fields of a node of a sheet that has passed tests 1 to 4: 31 past the last.
pub fn node(
    sheet: &[u8],
    number: u32,
    links: &mut u32,
    mark: &mut u32,
    weight_bits: &mut u32,
) -> u32 {
    // SAFETY: the pointer and the length are of one slice, lent for the call, that is only read; the three
    // numbers, which are written to, are lent mutably, so that they overlap nothing.
    unsafe {
        yeldmur_node(
            sheet.as_ptr(),
            sheet.len(),
            number,
            links,
            mark,
            weight_bits,
        )
    }
}
