//! The functions of the static library, as `bindings/c/polzaintu.h` declares them, each with a safe
//! call. All unsafe code is in this file.
//!
//! Every function answers every input. What it asks of its caller is asked of pointers alone, and a
//! safe call meets it: a reference or a slice, an empty one too, is not null, is aligned and
//! reaches as far as its type or length says; what is behind a `&mut` overlaps nothing else that is
//! lent, and nobody writes what is behind a `&`. A `bool` is 0 or 1. The structs are laid out as
//! the header's (`repr(C)`, of 64-bit words and floating numbers), and no bits of theirs are
//! invalid.
//!
//! A row of letters is lent as bytes: [`Letter`] is a `repr(u8)` whose values are the five bytes
//! that the library writes there. It writes all of them where it accepts a row, and none where it
//! doesn't, so that each is a [`Letter`] after every call.
#![allow(unsafe_code)]

use crate::board::State;
use crate::row::Lent;
use crate::settings::Limits;
use crate::Letter;
use std::mem::size_of;

/// A silent sender, as a stamp and as a link value.
pub const SILENT: u64 = u64::MAX;

/// What was lent does not fit.
pub const UNFIT: u32 = u32::MAX;

/// Own's stamp, the neighbours', and how many of those there are.
#[repr(C)]
pub struct Stamps {
    pub own: u64,
    pub neighbours: [u64; 3],
    pub count: u64,
}

/// P and the correction; `corrected` is 1, or 0 where there is none. The letter is a [`Letter`]'s
/// byte.
#[repr(C)]
#[derive(Default)]
pub struct Forwarded {
    pub p: i64,
    pub correction: i64,
    pub corrected: i64,
    pub letter: i64,
}

/// The earliest and latest time of a row.
#[repr(C)]
#[derive(Default)]
pub struct Ends {
    pub earliest: u64,
    pub latest: u64,
}

/// The midpoint and the half gap of a closed seam.
#[repr(C)]
#[derive(Default)]
pub struct Halves {
    pub midpoint: f64,
    pub half_gap: f64,
}

/// The reach of a broken tile, in ticks and columns.
#[repr(C)]
#[derive(Default)]
pub struct Range {
    pub ticks: u64,
    pub first: u64,
    pub last: u64,
}

/// The columns of a seam.
#[repr(C)]
#[derive(Default)]
pub struct Pair {
    pub left: u64,
    pub right: u64,
}

/// A wide seam: its columns, and its half gap in half ticks, the sign dropped.
#[repr(C)]
#[derive(Default)]
pub struct Wide {
    pub left: u64,
    pub right: u64,
    pub half_ticks: u64,
}

/// The last waves of a seam: the gap of each, how many are held at most, and the place of the next.
#[repr(C)]
#[derive(Clone, Copy, Debug, PartialEq, Eq)]
pub struct Waves {
    pub gaps: [u64; 64],
    pub n: u64,
    pub next: u64,
}

/// The largest and smallest half gap, in half ticks.
#[repr(C)]
#[derive(Default)]
pub struct HalfTicks {
    pub largest: i64,
    pub smallest: i64,
}

/// The same in ticks.
#[repr(C)]
#[derive(Default)]
pub struct HalfGaps {
    pub largest: f64,
    pub smallest: f64,
}

/// A broken tile, and how many rows below it a search looks.
#[repr(C)]
pub struct Broken {
    pub gap: u64,
    pub rows: u64,
    pub column: u64,
}

/// A broken tile by its row, and a later row in which a search looks.
#[repr(C)]
pub struct BrokenInRow {
    pub gap: u64,
    pub row: u64,
    pub later: u64,
    pub column: u64,
}

/// The search range of a whole wall, row by row.
#[repr(C)]
#[derive(Clone, Debug, Default)]
pub struct Survey {
    pub row: u64,
    pub gap: u64,
    pub largest: u64,
}

/// How far a wall file has been taken. At stage 5 the row is the refusal's number.
#[repr(C)]
#[derive(Clone, Debug)]
pub struct Wall {
    pub stage: u64,
    pub settings: Limits,
    pub row: u64,
    pub offset: u64,
}

const _: () = assert!(size_of::<usize>() == 8);
const _: () = assert!(size_of::<Letter>() == 1);
const _: () = assert!(size_of::<Limits>() == 7 * 8);
const _: () = assert!(size_of::<Stamps>() == 5 * 8);
const _: () = assert!(size_of::<Forwarded>() == 4 * 8);
const _: () = assert!(size_of::<Ends>() == 2 * 8);
const _: () = assert!(size_of::<Halves>() == 2 * 8);
const _: () = assert!(size_of::<Range>() == 3 * 8);
const _: () = assert!(size_of::<Pair>() == 2 * 8);
const _: () = assert!(size_of::<Wide>() == 3 * 8);
const _: () = assert!(size_of::<Waves>() == 66 * 8);
const _: () = assert!(size_of::<HalfTicks>() == 2 * 8);
const _: () = assert!(size_of::<HalfGaps>() == 2 * 8);
const _: () = assert!(size_of::<State>() == 18 * 8);
const _: () = assert!(size_of::<Broken>() == 3 * 8);
const _: () = assert!(size_of::<BrokenInRow>() == 4 * 8);
const _: () = assert!(size_of::<Survey>() == 3 * 8);
const _: () = assert!(size_of::<Wall>() == 10 * 8);

extern "C" {
    fn polzaintu_settings_refusal(settings: *const Limits) -> u32;
    fn polzaintu_tile(
        settings: *const Limits,
        stamps: *const Stamps,
        answer: *mut Forwarded,
    ) -> u32;
    fn polzaintu_row(
        settings: *const Limits,
        before: *const u64,
        before_len: usize,
        marks: *const u8,
        marks_len: usize,
        drifts: *const u32,
        drifts_len: usize,
        phases: *const u32,
        phases_len: usize,
        links: *const u64,
        links_len: usize,
        times: *mut u64,
        times_len: usize,
        letters: *mut u8,
        letters_len: usize,
        ends: *mut Ends,
    ) -> u32;
    fn polzaintu_seam(
        left: u64,
        left_faulty: bool,
        right: u64,
        right_faulty: bool,
        side: *mut u32,
        halves: *mut Halves,
    ) -> u32;
    fn polzaintu_waves_start(n: u64, waves: *mut Waves) -> u32;
    fn polzaintu_waves_hand_in(
        waves: *mut Waves,
        left: u64,
        left_faulty: bool,
        right: u64,
        right_faulty: bool,
        side: *mut u32,
        halves: *mut Halves,
    ) -> u32;
    fn polzaintu_waves_ask(
        waves: *const Waves,
        half_ticks: *mut HalfTicks,
        half_gaps: *mut HalfGaps,
    ) -> u32;
    fn polzaintu_board_start(
        settings: *const Limits,
        count: u64,
        reading: u64,
        board: *mut State,
    ) -> u32;
    fn polzaintu_board_pulse(board: *mut State, sender: u64) -> u32;
    fn polzaintu_board_close(board: *mut State, answer: *mut u32) -> u32;
    fn polzaintu_board_close_many(board: *mut State, n: u64, answer: *mut u32) -> u32;
    fn polzaintu_widest_gap(
        settings: *const Limits,
        row: *const u64,
        row_len: usize,
        gap: *mut u64,
    ) -> u32;
    fn polzaintu_reach(settings: *const Limits, broken: *const Broken, range: *mut Range) -> u32;
    fn polzaintu_reach_in_row(
        settings: *const Limits,
        broken: *const BrokenInRow,
        range: *mut Range,
    ) -> u32;
    fn polzaintu_survey_row(
        settings: *const Limits,
        row: *const u64,
        row_len: usize,
        survey: *mut Survey,
    ) -> u32;
    fn polzaintu_seam_columns(settings: *const Limits, seam: u64, columns: *mut Pair) -> u32;
    fn polzaintu_row_seam(
        settings: *const Limits,
        times: *const u64,
        times_len: usize,
        marks: *const u8,
        marks_len: usize,
        seam: u64,
        columns: *mut Pair,
        side: *mut u32,
        halves: *mut Halves,
    ) -> u32;
    fn polzaintu_first_wide(
        settings: *const Limits,
        times: *const u64,
        times_len: usize,
        marks: *const u8,
        marks_len: usize,
        limit: u64,
        found: *mut bool,
        wide: *mut Wide,
    ) -> u32;
    fn polzaintu_mark(
        settings: *const Limits,
        marks: *const u8,
        marks_len: usize,
        column: u64,
        faulty: *mut bool,
    ) -> u32;
    fn polzaintu_link_place(
        settings: *const Limits,
        tile: u64,
        sender: u64,
        place: *mut u64,
    ) -> u32;
    fn polzaintu_version() -> u32;
    fn polzaintu_wall_new(wall: *mut Wall);
    fn polzaintu_wall_due(wall: *const Wall) -> usize;
    fn polzaintu_wall_width(wall: *const Wall) -> usize;
    fn polzaintu_wall_step(
        wall: *mut Wall,
        part: *const u8,
        part_len: usize,
        row: *const u64,
        row_len: usize,
        next: *mut u64,
        next_len: usize,
        letters: *mut u8,
        letters_len: usize,
        offset: *mut u64,
    ) -> u32;
}

pub fn settings_refusal(settings: &Limits) -> u32 {
    // SAFETY: one struct behind a reference, read.
    unsafe { polzaintu_settings_refusal(settings) }
}

pub fn tile(settings: &Limits, stamps: &Stamps, answer: &mut Forwarded) -> u32 {
    // SAFETY: each struct is behind a reference; the answer, which is written, is behind a `&mut`.
    unsafe { polzaintu_tile(settings, stamps, answer) }
}

pub fn row(
    settings: &Limits,
    lent: &Lent,
    times: &mut [u64],
    letters: &mut [Letter],
    ends: &mut Ends,
) -> u32 {
    let Lent {
        before,
        marks,
        drifts,
        phases,
        links,
    } = lent;
    // SAFETY: each pointer is a slice's, with that slice's length, or a reference's; the times, the
    // letters and the ends, which are written, are each behind a `&mut`. The letters are written
    // with letters alone, or left as they are.
    unsafe {
        polzaintu_row(
            settings,
            before.as_ptr(),
            before.len(),
            marks.as_ptr(),
            marks.len(),
            drifts.as_ptr(),
            drifts.len(),
            phases.as_ptr(),
            phases.len(),
            links.as_ptr(),
            links.len(),
            times.as_mut_ptr(),
            times.len(),
            letters.as_mut_ptr().cast(),
            letters.len(),
            ends,
        )
    }
}

pub fn seam(
    left: u64,
    left_faulty: bool,
    right: u64,
    right_faulty: bool,
    side: &mut u32,
    halves: &mut Halves,
) -> u32 {
    // SAFETY: the side and the halves, which are written, are each behind a `&mut`; a Rust `bool`
    // is 0 or 1.
    unsafe { polzaintu_seam(left, left_faulty, right, right_faulty, side, halves) }
}

pub fn waves_start(n: u64, waves: &mut Waves) -> u32 {
    // SAFETY: one struct behind a `&mut`, written.
    unsafe { polzaintu_waves_start(n, waves) }
}

pub fn waves_hand_in(
    waves: &mut Waves,
    left: u64,
    left_faulty: bool,
    right: u64,
    right_faulty: bool,
    side: &mut u32,
    halves: &mut Halves,
) -> u32 {
    // SAFETY: the waves, the side and the halves, which are written, are each behind a `&mut`; a
    // Rust `bool` is 0 or 1.
    unsafe { polzaintu_waves_hand_in(waves, left, left_faulty, right, right_faulty, side, halves) }
}

pub fn waves_ask(waves: &Waves, half_ticks: &mut HalfTicks, half_gaps: &mut HalfGaps) -> u32 {
    // SAFETY: each struct is behind a reference; the two that are written are each behind a `&mut`.
    unsafe { polzaintu_waves_ask(waves, half_ticks, half_gaps) }
}

pub fn board_start(settings: &Limits, count: u64, reading: u64, board: &mut State) -> u32 {
    // SAFETY: each struct is behind a reference; the board, which is written, is behind a `&mut`.
    unsafe { polzaintu_board_start(settings, count, reading, board) }
}

pub fn board_pulse(board: &mut State, sender: u64) -> u32 {
    // SAFETY: one struct behind a `&mut`, written.
    unsafe { polzaintu_board_pulse(board, sender) }
}

pub fn board_close(board: &mut State, answer: &mut u32) -> u32 {
    // SAFETY: the board and the answer, which are written, are each behind a `&mut`.
    unsafe { polzaintu_board_close(board, answer) }
}

pub fn board_close_many(board: &mut State, n: u64, answer: &mut u32) -> u32 {
    // SAFETY: the board and the answer, which are written, are each behind a `&mut`.
    unsafe { polzaintu_board_close_many(board, n, answer) }
}

pub fn widest_gap(settings: &Limits, row: &[u64], gap: &mut u64) -> u32 {
    // SAFETY: the row's pointer is a slice's, with its length; the gap, which is written, is behind
    // a `&mut`.
    unsafe { polzaintu_widest_gap(settings, row.as_ptr(), row.len(), gap) }
}

pub fn reach(settings: &Limits, broken: &Broken, range: &mut Range) -> u32 {
    // SAFETY: each struct is behind a reference; the range, which is written, is behind a `&mut`.
    unsafe { polzaintu_reach(settings, broken, range) }
}

pub fn reach_in_row(settings: &Limits, broken: &BrokenInRow, range: &mut Range) -> u32 {
    // SAFETY: each struct is behind a reference; the range, which is written, is behind a `&mut`.
    unsafe { polzaintu_reach_in_row(settings, broken, range) }
}

pub fn survey_row(settings: &Limits, row: &[u64], survey: &mut Survey) -> u32 {
    // SAFETY: the row's pointer is a slice's, with its length; the survey, which is written, is
    // behind a `&mut`.
    unsafe { polzaintu_survey_row(settings, row.as_ptr(), row.len(), survey) }
}

pub fn seam_columns(settings: &Limits, seam: u64, columns: &mut Pair) -> u32 {
    // SAFETY: the settings are behind a reference; the columns, which are written, are behind a
    // `&mut`.
    unsafe { polzaintu_seam_columns(settings, seam, columns) }
}

pub fn row_seam(
    settings: &Limits,
    times: &[u64],
    marks: &[u8],
    seam: u64,
    columns: &mut Pair,
    side: &mut u32,
    halves: &mut Halves,
) -> u32 {
    // SAFETY: each pointer is a slice's, with that slice's length, or a reference's; the columns,
    // the side and the halves, which are written, are each behind a `&mut`.
    unsafe {
        polzaintu_row_seam(
            settings,
            times.as_ptr(),
            times.len(),
            marks.as_ptr(),
            marks.len(),
            seam,
            columns,
            side,
            halves,
        )
    }
}

pub fn first_wide(
    settings: &Limits,
    times: &[u64],
    marks: &[u8],
    limit: u64,
    found: &mut bool,
    wide: &mut Wide,
) -> u32 {
    // SAFETY: each pointer is a slice's, with that slice's length, or a reference's; the wide seam
    // and the `bool`, which are written, the latter with 0 or 1, are each behind a `&mut`.
    unsafe {
        polzaintu_first_wide(
            settings,
            times.as_ptr(),
            times.len(),
            marks.as_ptr(),
            marks.len(),
            limit,
            found,
            wide,
        )
    }
}

pub fn mark(settings: &Limits, marks: &[u8], column: u64, faulty: &mut bool) -> u32 {
    // SAFETY: the marks' pointer is a slice's, with its length; the `bool`, which is written with 0
    // or 1, is behind a `&mut`.
    unsafe { polzaintu_mark(settings, marks.as_ptr(), marks.len(), column, faulty) }
}

pub fn link_place(settings: &Limits, tile: u64, sender: u64, place: &mut u64) -> u32 {
    // SAFETY: the settings are behind a reference; the place, which is written, is behind a `&mut`.
    unsafe { polzaintu_link_place(settings, tile, sender, place) }
}

pub fn version() -> u32 {
    // SAFETY: it is lent nothing.
    unsafe { polzaintu_version() }
}

pub fn wall_new() -> Wall {
    let mut wall = Wall {
        stage: 0,
        settings: Limits {
            width: 0,
            rows: 0,
            delay: 0,
            uncertainty: 0,
            hold: 0,
            drift: 0,
            unit: 0,
        },
        row: 0,
        offset: 0,
    };
    // SAFETY: one struct behind a `&mut`, written.
    unsafe { polzaintu_wall_new(&mut wall) };
    wall
}

pub fn wall_due(wall: &Wall) -> usize {
    // SAFETY: one struct behind a reference, read.
    unsafe { polzaintu_wall_due(wall) }
}

pub fn wall_width(wall: &Wall) -> usize {
    // SAFETY: one struct behind a reference, read.
    unsafe { polzaintu_wall_width(wall) }
}

pub fn wall_step(
    wall: &mut Wall,
    part: &[u8],
    row: &[u64],
    next: &mut [u64],
    letters: &mut [Letter],
    offset: &mut u64,
) -> u32 {
    // SAFETY: each pointer is a slice's, with that slice's length, or a reference's; the wall, the
    // next row, the letters and the offset, which are written, are each behind a `&mut`. The letters
    // are written with letters alone, or left as they are.
    unsafe {
        polzaintu_wall_step(
            wall,
            part.as_ptr(),
            part.len(),
            row.as_ptr(),
            row.len(),
            next.as_mut_ptr(),
            next.len(),
            letters.as_mut_ptr().cast(),
            letters.len(),
            offset,
        )
    }
}
