//! Tests of the wrapper, the same as those of the surface for C (`surface/calls.c`): every call, every refusal number,
//! slices between guards. `rooms` checks what holds of every call; the cases here say which answer an input gets.

mod maps;
mod rooms;

use kanzhulet::{
    FacesAnswer, Form, PageAnswer, ReadAnswer, Refusal, ReportAnswer, State, WriteAnswer, MAX_DARTS, MAX_STREAM,
    MAX_TABLES, MAX_WORK, NO_LINK, RECORD,
};
use maps::{loop_and_chain, post_chain, post_couples, post_free, post_grid, post_pairs, post_ring, post_squares, tie};
use maps::{Sample, SAMPLES, SITES};
use rooms::{is_number, refused, Lent, Map, NUMBERS, SPARE};
use std::fmt::Write;

const MOST: usize = usize::MAX;
/// 0 for a call that would drop the upper half.
const WIDE: usize = 1 << 32;

/// Each theme is a test of its own, and all of them together see every number from 0 to 23 and from 26 to 30.
macro_rules! themes {
    ($($theme:ident),* $(,)?) => {
        mod each {
            $(#[test]
            fn $theme() {
                super::$theme(&mut super::Lent::new());
            })*
        }

        #[test]
        fn every_number_is_seen() {
            let mut lent = Lent::new();
            $($theme(&mut lent);)*
            for (number, seen) in lent.seen.into_iter().enumerate() {
                assert_eq!(seen, is_number(number), "number {number}");
            }
        }
    };
}

themes! {
    read_each_stream,
    read_known_tables,
    sessions_agree_with_whole_reads,
    record_after_each_byte,
    bodies_after_each_byte,
    one_body_refuses_a_session,
    index_waits_for_its_last_bit,
    empty_page_changes_nothing,
    closed_once,
    byte_after_a_complete_session,
    unfit_records_are_left,
    lent_refusals_and_closed_records,
    lent_session_goes_on,
    lent_bodies_go_on,
    wrong_forms_and_bodies,
    fetch_is_least,
    fetch_each_stream,
    fetch_after_each_byte,
    numbers_out_of_range,
    rooms_one_entry_short,
    entries_not_below_n,
    links_not_their_own_inverse,
    manifold_condition_by_pair_then_dart,
    darts_not_reached,
    first_fault_is_answered,
    first_fault_of_several_bodies,
    known_streams,
    starts_at_and_past_the_end,
    samples_there_and_back,
    sites_there_and_back,
    one_body_is_refused,
    read_each_face_file,
    face_files_of_grids,
    face_files_of_squares,
    rooms_for_a_cube,
    squares_apart,
    long_face_files,
    as_many_darts_as_allowed,
    longest_stream,
    longest_stream_of_bodies,
}

// Reading: the streams.

/// Name, bytes, entries of the tables lent; number and place; N and n.
type Reading = (&'static str, &'static [u8], usize, u32, usize, usize, usize);

static READINGS: &[Reading] = &[
    // The examples of the requirements.
    ("P1", &[0x10, 0x00, 0xA0], 2, 0, 0, 1, 1),
    ("P2", &[0x10, 0x01, 0x50], 4, 0, 0, 1, 2),
    ("P3", &[0x10, 0x05, 0x06, 0x00, 0xA0], 12, 0, 0, 1, 6),
    ("P4", &[], 4, 11, 0, 0, 0),
    ("P5", &[0x10, 0x01], 4, 11, 0, 0, 0),
    ("P6", &[0x70, 0x00], 16, 1, 0, 0, 0),
    ("P7", &[0x10, 0x00, 0x00], 2, 13, 0, 0, 0),
    ("P8", &[0x10, 0x01, 0xA0], 4, 15, 2, 0, 0),
    ("P9", &[0x10, 0x01, 0xC0, 0x00], 4, 22, 0, 0, 0),
    ("P10", &[0x20, 0x02, 0xA2, 0x80], 9, 14, 8, 0, 0),
    ("P11", &[0x30, 0x07, 0x45, 0x41, 0x80, 0x3D, 0x00], 32, 16, 32, 0, 0),
    ("P12", &[0x10, 0x00, 0xA1], 2, 17, 2, 0, 0),
    ("P13", &[0x10, 0x00, 0xA0, 0x00], 2, 18, 2, 0, 0),
    // Longer rooms: nothing is written past (N+1)n.
    ("P3, longer room", &[0x10, 0x05, 0x06, 0x00, 0xA0], 30, 0, 0, 1, 6),
    ("P5, longer room", &[0x10, 0x01], 40, 11, 0, 0, 0),
    ("P11, longer room", &[0x30, 0x07, 0x45, 0x41, 0x80, 0x3D, 0x00], 40, 16, 32, 0, 0),
    ("paper's figure 9", &[0x20, 0x0B, 0x06, 0x00, 0xB4, 0x06, 0x01, 0x74], 40, 0, 0, 2, 12),
    // A room one entry short, seen as soon as both header bytes are there and not before.
    ("P5, short room", &[0x10, 0x01], 3, 3, 0, 0, 0),
    ("P3, no room", &[0x10, 0x05, 0x06, 0x00, 0xA0], 0, 3, 0, 0, 0),
    ("half a header, no room", &[0x10], 0, 11, 0, 0, 0),
    ("greatest header, short room", &[0x6F, 0xFF], MAX_TABLES - 1, 3, 0, 0, 0),
    ("greatest header", &[0x6F, 0xFF], MAX_TABLES, 11, 0, 0, 0),
    // The dimension, not before the second byte and before the room.
    ("half a bad header", &[0x70], 16, 11, 0, 0, 0),
    ("dimension 0", &[0x00, 0x00], 0, 1, 0, 0, 0),
    ("dimension 0 of several bodies", &[0x80, 0x01, 0xAA], 0, 1, 0, 0, 0),
    ("dimension 7 of several bodies", &[0xFF, 0xFF, 0xFF], 8, 1, 0, 0, 0),
    ("half a bad header of several bodies", &[0x80], 16, 11, 0, 0, 0),
    // Every dimension's lone dart; with four ranks the last symbol ends on a byte border and there is no fill.
    ("lone dart in 2", &[0x20, 0x00, 0xA8], 3, 0, 0, 2, 1),
    ("lone dart in 3", &[0x30, 0x00, 0xAA], 4, 0, 0, 3, 1),
    ("lone dart in 4", &[0x40, 0x00, 0xAA, 0x80], 5, 0, 0, 4, 1),
    ("lone dart in 5", &[0x50, 0x00, 0xAA, 0xA0], 6, 0, 0, 5, 1),
    ("lone dart in 6", &[0x60, 0x00, 0xAA, 0xA8], 7, 0, 0, 6, 1),
    ("no fill, a byte after", &[0x30, 0x00, 0xAA, 0x00], 4, 18, 4, 0, 0),
    ("last fill bit", &[0x60, 0x00, 0xAA, 0xA9], 7, 17, 7, 0, 0),
    // A named dart: judged once its twelve bits are in; not one without number, not the dart itself (P9), not one that
    // is linked.
    ("index not all there", &[0x10, 0x01, 0xFF], 4, 11, 0, 0, 0),
    ("index without number", &[0x10, 0x02, 0x60, 0x0A], 6, 21, 2, 0, 0),
    ("index linked already", &[0x10, 0x03, 0x18, 0x00, 0x00], 8, 23, 5, 0, 0),
    // Disagreement with a larger i is found at the end, not at the step.
    ("smallest 16", &[0x20, 0x03, 0x91, 0x58, 0x01, 0x80], 12, 16, 12, 0, 0),
    // Of several faults at the end the first of 15, 16, 17, 18; a byte after the end is 18 whatever it holds.
    ("15 before 17", &[0x10, 0x01, 0xA1, 0x00], 4, 15, 2, 0, 0),
    ("16 before 17", &[0x30, 0x07, 0x45, 0x41, 0x80, 0x3D, 0x01], 32, 16, 32, 0, 0),
    ("17 before 18", &[0x10, 0x00, 0xA1, 0x00], 2, 17, 2, 0, 0),
    ("set bits after the end", &[0x10, 0x00, 0xA0, 0xFF], 2, 18, 2, 0, 0),
    // Several bodies: each next one begins without a symbol, N in the answer is N.
    ("two lone darts", &[0x90, 0x01, 0xAA], 4, 0, 0, 1, 2),
    ("two lone darts in 2", &[0xA0, 0x01, 0xAA, 0xA0], 9, 0, 0, 2, 2),
    ("two lone darts in 6", &[0xE0, 0x01, 0xAA, 0xAA, 0xAA, 0xA0], 14, 0, 0, 6, 2),
    ("two squares", &TWO_SQUARES, 50, 0, 0, 2, 16),
    ("greatest header of several bodies", &[0xEF, 0xFF], MAX_TABLES, 11, 0, 0, 0),
    ("greatest header of several bodies, short room", &[0xEF, 0xFF], MAX_TABLES - 1, 3, 0, 0, 0),
    // One body only: before 16, 17 and 18, and 15 is not given.
    ("one body", &[0x90, 0x00, 0xA0], 2, 30, 2, 0, 0),
    ("P2 as several bodies", &[0x90, 0x01, 0x50], 4, 30, 4, 0, 0),
    ("30 before 16", &[0xB0, 0x07, 0x45, 0x41, 0x80, 0x3D, 0x00], 40, 30, 32, 0, 0),
    ("30 before 17", &[0x90, 0x00, 0xA1, 0x00], 2, 30, 2, 0, 0),
    ("30 before 18", &[0x90, 0x00, 0xA0, 0x00], 9, 30, 2, 0, 0),
    // The second body has begun before its first bit, and the faults of its steps are those of any step.
    ("second body cut", &[0x90, 0x01], 4, 11, 0, 0, 0),
    ("third body cut", &[0x90, 0x02, 0xAA], 6, 11, 4, 0, 0),
    ("new dart in the last body", &[0x90, 0x01, 0xA0], 8, 13, 2, 0, 0),
    ("index of an earlier body", &[0x90, 0x02, 0xAC, 0x00, 0x00], 6, 23, 2, 0, 0),
    ("index of the second body's root", &[0x90, 0x02, 0xAC, 0x00, 0x40], 6, 22, 2, 0, 0),
    ("index of a body to come", &[0x90, 0x02, 0xAC, 0x00, 0x80], 6, 21, 2, 0, 0),
    ("P10 after a lone dart", &[0xA0, 0x03, 0xAA, 0x8A, 0x00], 12, 14, 11, 0, 0),
    ("16 in the first of two bodies", &[0xB0, 0x08, 0x45, 0x41, 0x80, 0x3D, 0x55, 0x00], 36, 16, 36, 0, 0),
    ("16 before 17, two bodies", &[0xB0, 0x08, 0x45, 0x41, 0x80, 0x3D, 0x55, 0x01], 36, 16, 36, 0, 0),
    ("last fill bit of two bodies", &[0xA0, 0x01, 0xAA, 0xA1, 0x00], 6, 17, 6, 0, 0),
    ("a byte after two bodies", &[0xA0, 0x01, 0xAA, 0xA0, 0xFF], 6, 18, 6, 0, 0),
];

/// The stream of two squares that nothing joins.
const TWO_SQUARES: [u8; 10] = [0xA0, 0x0F, 0x01, 0x80, 0x3D, 0x50, 0x0C, 0x03, 0xEA, 0x80];

type Reply = Result<ReadAnswer, Refusal>;

fn reading(steps: usize, dim: usize, darts: usize) -> Reply {
    Ok(ReadAnswer { steps, dim, darts })
}

/// What one whole read gave, for the sessions to be held against.
struct Whole {
    answer: Reply,
    tables: Vec<u16>,
}

fn read_whole(lent: &mut Lent, bytes: &[u8], room: usize) -> Whole {
    lent.page.lend_copy(bytes);
    lent.built.lend(room);
    let answer = lent.read();
    Whole { answer, tables: lent.built.at().to_vec() }
}

fn read_each_stream(lent: &mut Lent) {
    for &(name, bytes, room, number, place, dim, darts) in READINGS {
        lent.begin(name);
        let whole = read_whole(lent, bytes, room);
        let expected = if number == 0 { reading((dim + 1) * darts, dim, darts) } else { refused(number, place) };
        lent.expect(whole.answer, expected);
    }
}

fn expect_built(lent: &mut Lent, bytes: &[u8], tables: &[u16]) {
    let whole = read_whole(lent, bytes, tables.len());
    lent.must(whole.answer.is_ok() && whole.tables == tables, "the tables are those known");
}

/// P3's tables tell a walk that goes back to queue 0 after a new dart from one that does not; its answer and cells do
/// not.
fn read_known_tables(lent: &mut Lent) {
    lent.begin("tables of P1 to P3, and of two bodies");
    expect_built(lent, &[0x10, 0x00, 0xA0], &[0, 0]);
    expect_built(lent, &[0x10, 0x01, 0x50], &[1, 0, 0, 1]);
    expect_built(lent, &[0x10, 0x05, 0x06, 0x00, 0xA0], &[1, 2, 0, 4, 3, 0, 2, 5, 5, 1, 4, 3]);
    let loop_and_chain = [1, 1, 0, 0, 3, 2, 2, 4, 5, 3, 4, 6, 6, 5];
    expect_built(lent, &[0x90, 0x06, 0x60, 0x02, 0x84], &loop_and_chain);
}

// Reading: sessions.

fn give_page(lent: &mut Lent, bytes: &[u8]) -> Result<PageAnswer, Refusal> {
    lent.page.lend_copy(bytes);
    lent.page()
}

fn give(lent: &mut Lent, bytes: &[u8]) -> Reply {
    give_page(lent, bytes).map(|a| a.reading)
}

fn open_in(lent: &mut Lent, room: usize) {
    lent.open();
    lent.built.lend(room);
}

/// A session's numbers and its tables put away, another stream read in the same rooms, and both taken up again:
/// nothing else belongs to a session.
fn carry_elsewhere(lent: &mut Lent) {
    let (record, tables) = (lent.record(), lent.built.at().to_vec());
    open_in(lent, 4);
    let other = give(lent, &[0x10, 0x01]);
    lent.expect(other, reading(0, 1, 2));
    lent.take_up(record);
    lent.built.lend_copy(&tables);
}

/// A page that may be the last to be accepted: a refusal must be the whole read's.
fn feed_page(lent: &mut Lent, bytes: &[u8], whole: &Whole) {
    let answer = give(lent, bytes);
    if answer.is_err() {
        lent.expect(answer, whole.answer);
    }
}

fn expect_close_as_whole(lent: &mut Lent, whole: &Whole) {
    let answer = lent.close();
    lent.expect(answer, whole.answer);
    lent.must(lent.built.at() == whole.tables, "the tables are the whole read's");
}

/// Two pages, cut at each place, with the session carried over the cut.
fn feed_cut_everywhere(lent: &mut Lent, bytes: &[u8], whole: &Whole) {
    for cut in 0..=bytes.len() {
        open_in(lent, whole.tables.len());
        feed_page(lent, &bytes[..cut], whole);
        carry_elsewhere(lent);
        feed_page(lent, &bytes[cut..], whole);
        expect_close_as_whole(lent, whole);
    }
}

/// Pages of one size, with an empty page after each.
fn feed_pages_of(lent: &mut Lent, bytes: &[u8], whole: &Whole, size: usize) {
    open_in(lent, whole.tables.len());
    for page in bytes.chunks(size) {
        feed_page(lent, page, whole);
        feed_page(lent, &[], whole);
    }
    expect_close_as_whole(lent, whole);
}

fn sessions_agree_with_whole_reads(lent: &mut Lent) {
    for &(name, bytes, room, ..) in READINGS {
        lent.begin(name);
        let whole = read_whole(lent, bytes, room);
        feed_cut_everywhere(lent, bytes, &whole);
        for size in [1, 2, 3, 7] {
            feed_pages_of(lent, bytes, &whole, size);
        }
    }
}

#[track_caller]
fn expect_given(lent: &mut Lent, bytes: &[u8], answer: Reply, record: [u32; RECORD]) {
    let given = give(lent, bytes);
    lent.expect(given, answer);
    lent.must(lent.record() == record, "the record is the one known");
}

#[track_caller]
fn expect_page(lent: &mut Lent, bytes: &[u8], answer: Reply) {
    let given = give(lent, bytes);
    lent.expect(given, answer);
}

#[track_caller]
fn expect_close(lent: &mut Lent, answer: Reply) {
    let given = lent.close();
    lent.expect(given, answer);
}

/// Every step is done that needs no bit beyond those seen, no more and no less.
fn record_after_each_byte(lent: &mut Lent) {
    lent.begin("record after each byte");
    open_in(lent, 8);
    expect_given(lent, &[0x10], reading(0, 0, 0), [0, 0, 0, 0, 0, 0, 0, 0, 0, 0, 0, 0, 0, 8, 0x10, 0, 0]);
    expect_given(lent, &[0x03], reading(0, 1, 4), [1, 0, 0, 1, 4, 1, 0, 0, 0, 0, 0, 0, 0, 0, 0, 0, 1]);
    expect_given(lent, &[0x18], reading(5, 1, 4), [1, 0, 0, 1, 4, 4, 4, 1, 0, 0, 0, 0, 0, 5, 0x18, 0, 1]);
    expect_given(lent, &[0x00], reading(5, 1, 4), [1, 0, 0, 1, 4, 4, 4, 1, 0, 0, 0, 0, 0, 13, 0x1800, 0, 1]);
    lent.must(lent.state() == Some(State::Running), "the session is running");
    expect_close(lent, refused(11, 5));
    expect_close(lent, refused(11, 5));
    expect_page(lent, &[0x00], refused(11, 5));
}

/// A body begins as soon as the one before has ended, before any bit of its own, and the record tells. Three lone
/// darts, then the same closed early.
fn bodies_after_each_byte(lent: &mut Lent) {
    lent.begin("bodies after each byte");
    open_in(lent, 6);
    expect_given(lent, &[0x90], reading(0, 0, 0), [0, 0, 0, 0, 0, 0, 0, 0, 0, 0, 0, 0, 0, 8, 0x90, 0, 0]);
    expect_given(lent, &[0x02], reading(0, 1, 3), [1, 0, 0, 1, 3, 1, 0, 0, 0, 0, 0, 0, 0, 0, 0, 1, 1]);
    lent.must(lent.form_read() == Some(Form::SeveralBodies) && lent.bodies() == 1, "the form is told by the header");
    expect_given(lent, &[0xAA], reading(4, 1, 3), [1, 0, 0, 1, 3, 3, 2, 2, 0, 0, 0, 0, 0, 0, 0, 1, 3]);
    expect_given(lent, &[0xA0], reading(6, 1, 3), [2, 0, 0, 1, 3, 3, 3, 3, 0, 0, 0, 0, 0, 0, 0, 1, 3]);
    expect_close(lent, reading(6, 1, 3));
    lent.must(lent.record() == [3, 0, 0, 1, 3, 3, 3, 3, 0, 0, 0, 0, 0, 0, 0, 1, 3], "form and bodies are kept");
    expect_close(lent, refused(20, 0));
    open_in(lent, 6);
    expect_page(lent, &[0x90, 0x02, 0xAA], reading(4, 1, 3));
    expect_close(lent, refused(11, 4));
    lent.must(lent.record() == record_of(&[4, 11, 4]), "a refused session has no form and no body");
}

/// 30 is a session's refusal like any other: the record says it and nothing else, and it is repeated.
fn one_body_refuses_a_session(lent: &mut Lent) {
    lent.begin("one body in a session");
    open_in(lent, 5);
    expect_page(lent, &[0x90, 0x01], reading(0, 1, 2));
    expect_given(lent, &[0x50], refused(30, 4), record_of(&[4, 30, 4]));
    lent.must(lent.built.at()[..4] == [NO_LINK; 4] && lent.built.kept_from(4), "the tables say no link");
    expect_page(lent, &[], refused(30, 4));
    expect_page(lent, &[0x10, 0x01, 0x50], refused(30, 4));
    expect_close(lent, refused(30, 4));
    lent.must(lent.record() == record_of(&[4, 30, 4]), "a repeated refusal keeps the record");
}

fn index_waits_for_its_last_bit(lent: &mut Lent) {
    lent.begin("index waits");
    open_in(lent, 4);
    expect_given(lent, &[0x10, 0x01, 0xC1], reading(0, 1, 2), [1, 0, 0, 1, 2, 1, 0, 0, 0, 0, 0, 0, 0, 8, 0xC1, 0, 1]);
    expect_page(lent, &[0x00], refused(21, 0));
}

fn empty_page_changes_nothing(lent: &mut Lent) {
    lent.begin("empty page");
    open_in(lent, 4);
    expect_page(lent, &[], reading(0, 0, 0));
    for (bytes, steps) in [(&[0x10, 0x01][..], 0), (&[0x50], 4)] {
        expect_page(lent, bytes, reading(steps, 1, 2));
        let record = lent.record();
        expect_given(lent, &[], reading(steps, 1, 2), record);
        lent.must(lent.built.kept(), "the tables are kept");
    }
}

fn closed_once(lent: &mut Lent) {
    lent.begin("closed once");
    open_in(lent, 4);
    expect_given(lent, &[0x10, 0x01, 0x50], reading(4, 1, 2), [2, 0, 0, 1, 2, 2, 2, 2, 0, 0, 0, 0, 0, 0, 0, 0, 1]);
    lent.must(lent.state() == Some(State::Complete), "the session is complete");
    expect_close(lent, reading(4, 1, 2));
    lent.must(lent.record() == [3, 0, 0, 1, 2, 2, 2, 2, 0, 0, 0, 0, 0, 0, 0, 0, 1], "the other numbers are kept");
    expect_close(lent, refused(20, 0));
    expect_page(lent, &[0x00], refused(20, 0));
    expect_page(lent, &[], refused(20, 0));
    lent.built.lend(0);
    expect_close(lent, refused(20, 0));
}

fn byte_after_a_complete_session(lent: &mut Lent) {
    lent.begin("byte after the end");
    open_in(lent, 4);
    expect_page(lent, &[0x10, 0x01, 0x50], reading(4, 1, 2));
    expect_page(lent, &[0x00], refused(18, 4));
    lent.must(lent.built.at() == [NO_LINK; 4], "the tables say no link");
    expect_page(lent, &[], refused(18, 4));
    expect_close(lent, refused(18, 4));
}

// Lent records: numbers and tables of any content.

/// The numbers given, and 0 for all others.
fn record_of(numbers: &[u32]) -> [u32; RECORD] {
    let mut record = [0; RECORD];
    record[..numbers.len()].copy_from_slice(numbers);
    record
}

/// The same with this form and so many bodies.
fn record_with(numbers: &[u32], (form, bodies): (u32, u32)) -> [u32; RECORD] {
    let mut record = record_of(numbers);
    record[15] = form;
    record[16] = bodies;
    record
}

const NO: u16 = NO_LINK;

/// Form and bodies: none, as at opening and when refused, and one body.
const NONE: (u32, u32) = (0, 0);
const ONE: (u32, u32) = (0, 1);

/// Name, first numbers of the record, its form and bodies, tables.
type Unfit = (&'static str, &'static [u32], (u32, u32), &'static [u16]);

static UNFIT: &[Unfit] = &[
    ("state 5", &[5], NONE, &[]),
    ("greatest state", &[u32::MAX], NONE, &[]),
    ("refusal number in header state", &[0, 11], NONE, &[]),
    ("refusal place in header state", &[0, 0, 1], NONE, &[]),
    ("refusal number when closed", &[3, 20], NONE, &[]),
    ("position 65536", &[3, 0, 0, 0, 0, 0, 65536], NONE, &[]),
    ("last position 65536", &[3, 0, 0, 0, 0, 0, 0, 0, 0, 0, 0, 0, 65536], NONE, &[]),
    ("value 65536 when refused", &[4, 11, 0, 0, 0, 0, 0, 0, 0, 0, 0, 0, 0, 0, 65536], NONE, &[]),
    ("header with a count", &[0, 0, 0, 0, 0, 1], NONE, &[]),
    ("header with 7 bits", &[0, 0, 0, 0, 0, 0, 0, 0, 0, 0, 0, 0, 0, 7, 1], NONE, &[]),
    ("header with value past 8 bits", &[0, 0, 0, 0, 0, 0, 0, 0, 0, 0, 0, 0, 0, 8, 256], NONE, &[]),
    ("no bits but a value", &[0, 0, 0, 0, 0, 0, 0, 0, 0, 0, 0, 0, 0, 0, 5], NONE, &[]),
    ("refused by 0", &[4, 0, 0], NONE, &[]),
    ("refused by 2", &[4, 2, 0], NONE, &[]),
    ("refused by 10", &[4, 10, 0], NONE, &[]),
    ("refused by 1 at 1", &[4, 1, 1], NONE, &[]),
    ("refused by 3 at 1", &[4, 3, 1], NONE, &[]),
    ("refused by 19", &[4, 19, 0], NONE, &[]),
    ("refused by 20", &[4, 20, 0], NONE, &[]),
    ("refused by 24", &[4, 24, 0], NONE, &[]),
    ("refused by 25", &[4, 25, 0], NONE, &[]),
    ("refused by 26", &[4, 26, 0], NONE, &[]),
    ("refused by 29", &[4, 29, 0], NONE, &[]),
    ("refused by 31", &[4, 31, 0], NONE, &[]),
    ("form 2 of a header", &[0], (2, 0), &[]),
    ("form 2 when closed", &[3], (2, 0), &[]),
    ("greatest form when closed", &[3], (u32::MAX, 0), &[]),
    ("form 2 when refused", &[4, 11], (2, 0), &[]),
    ("65536 bodies when closed", &[3], (0, 65536), &[]),
    ("header with a form", &[0], (1, 0), &[]),
    ("header with a body", &[0], (0, 1), &[]),
    ("header with form and body", &[0, 0, 0, 0, 0, 0, 0, 0, 0, 0, 0, 0, 0, 8, 0x90], (1, 1), &[]),
    ("refused with a form", &[4, 11], (1, 0), &[]),
    ("refused with a body", &[4, 11], (0, 1), &[]),
    ("refused by 30 with form and bodies", &[4, 30, 4], (1, 1), &[]),
    ("running in dimension 0", &[1, 0, 0, 0, 2, 1], ONE, &[NO, NO, NO, NO]),
    ("running in dimension 7", &[1, 0, 0, 7, 2, 1], ONE, &[NO, NO, NO, NO]),
    ("running without darts", &[1, 0, 0, 1, 0, 1], ONE, &[NO, NO, NO, NO]),
    ("running with 4097 darts", &[1, 0, 0, 1, 4097, 1], ONE, &[NO, NO, NO, NO]),
    ("running, short tables", &[1, 0, 0, 1, 2, 1], ONE, &[NO, NO, NO]),
    ("count 0", &[1, 0, 0, 1, 2, 0], ONE, &[NO, NO, NO, NO]),
    ("count above n", &[1, 0, 0, 1, 2, 3], ONE, &[NO, NO, NO, NO]),
    ("position above count", &[1, 0, 0, 1, 2, 1, 2], ONE, &[0, NO, 0, NO]),
    ("rising positions", &[1, 0, 0, 1, 2, 2, 1, 2], ONE, &[1, 1, 0, 0]),
    ("position past N", &[1, 0, 0, 1, 2, 2, 2, 1, 1], ONE, &[1, 0, 0, NO]),
    ("entry not below count", &[1, 0, 0, 1, 2, 1, 1, 0], ONE, &[1, NO, NO, NO]),
    ("entry missing behind a position", &[1, 0, 0, 1, 2, 2, 1, 0], ONE, &[NO, NO, NO, NO]),
    ("tables by rank", &[1, 0, 0, 1, 2, 2, 2, 0], ONE, &[1, 0, NO, NO]),
    ("entry of a dart without number", &[1, 0, 0, 1, 2, 1, 0], ONE, &[NO, NO, 0, NO]),
    ("next step known", &[1, 0, 0, 1, 2, 2, 1, 0], ONE, &[1, NO, 0, NO]),
    ("14 waiting bits", &[1, 0, 0, 1, 2, 1, 0, 0, 0, 0, 0, 0, 0, 14, 0x3000], ONE, &[NO, NO, NO, NO]),
    ("waiting bits of a whole symbol", &[1, 0, 0, 1, 2, 1, 0, 0, 0, 0, 0, 0, 0, 2, 2], ONE, &[NO, NO, NO, NO]),
    ("complete with a step left", &[2, 0, 0, 1, 2, 2, 2, 1], ONE, &[1, 0, 0, NO]),
    ("complete without its tables", &[2, 0, 0, 1, 2, 2, 2, 2], ONE, &[1, NO, 0, NO]),
    ("running without a body", &[1, 0, 0, 1, 2, 1], NONE, &[NO, NO, NO, NO]),
    ("running in form 2", &[1, 0, 0, 1, 2, 1], (2, 1), &[NO, NO, NO, NO]),
    ("several bodies without a body", &[1, 0, 0, 1, 2, 1], (1, 0), &[NO, NO, NO, NO]),
    ("more bodies than darts numbered", &[1, 0, 0, 1, 2, 1], (1, 2), &[NO, NO, NO, NO]),
    ("two bodies in the form of one", &[1, 0, 0, 1, 2, 2, 1, 1], (0, 2), &[0, 0, NO, NO]),
    ("a body that has not begun", &[1, 0, 0, 1, 2, 1, 1, 1], (1, 1), &[0, 0, NO, NO]),
    ("complete without a body", &[2, 0, 0, 1, 2, 2, 2, 2], NONE, &[0, 0, 1, 1]),
    ("complete, two bodies in the form of one", &[2, 0, 0, 1, 2, 2, 2, 2], (0, 2), &[0, 0, 1, 1]),
    ("complete, three bodies of two darts", &[2, 0, 0, 1, 2, 2, 2, 2], (1, 3), &[0, 0, 1, 1]),
    ("complete with waiting bits", &[2, 0, 0, 1, 2, 2, 2, 2, 0, 0, 0, 0, 0, 1, 1], ONE, &[1, 0, 0, 1]),
];

fn unfit_records_are_left(lent: &mut Lent) {
    for &(name, numbers, bodies, tables) in UNFIT {
        lent.begin(name);
        lent.take_up(record_with(numbers, bodies));
        lent.built.lend_copy(tables);
        expect_page(lent, &[0x80], refused(19, 0));
        expect_page(lent, &[], refused(19, 0));
        expect_close(lent, refused(19, 0));
        lent.must(lent.state().is_some() == (numbers[0] <= 4), "only a record of another state has none");
        lent.must(lent.form_read().is_some() == (bodies.0 <= 1), "only a record of another form has none");
    }
}

/// Fit is asked of a refused record only in its number and place, form and bodies, and of a closed one nothing but
/// sixteen bits and a form.
fn lent_refusals_and_closed_records(lent: &mut Lent) {
    lent.begin("lent refusals");
    lent.built.lend_copy(&[7; 4]);
    lent.take_up([4, 11, 4_000_000_000, 9, 8, 7, 6, 5, 4, 3, 2, 1, 0, 65535, 65535, 0, 0]);
    expect_page(lent, &[0x10, 0x01, 0x50], refused(11, 4_000_000_000));
    expect_close(lent, refused(11, 4_000_000_000));
    for number in (11..=18).chain(21..=23).chain([30]) {
        lent.take_up(record_of(&[4, number, 3 * number]));
        expect_page(lent, &[0x80], refused(number, 3 * number as usize));
        expect_close(lent, refused(number, 3 * number as usize));
    }
    lent.take_up([3, 0, 0, 9, 65535, 65535, 1, 2, 3, 4, 5, 6, 7, 65535, 65535, 1, 65535]);
    expect_page(lent, &[0x10, 0x01, 0x50], refused(20, 0));
    expect_close(lent, refused(20, 0));
}

/// First a session between two ranks: a0 of both darts is known, a1 of none. Then a fit one that no reading could
/// leave, which is carried on by the same rules: its a0 is not its own inverse, and dimension 1 has no pair of ranks
/// that the end could test.
fn lent_session_goes_on(lent: &mut Lent) {
    lent.begin("lent session goes on");
    let between = (0, [1, NO, 0, NO], 0xA0, [1, 0, 0, 1]);
    let never_left = (1, [0, 0, 0, NO], 0x80, [0, 0, 0, 1]);
    for (position, tables, byte, after) in [between, never_left] {
        lent.take_up(record_with(&[1, 0, 0, 1, 2, 2, 2, position], ONE));
        lent.built.lend_copy(&tables);
        expect_page(lent, &[byte], reading(4, 1, 2));
        lent.must(lent.built.at() == after, "the last links are set");
        expect_close(lent, reading(4, 1, 2));
    }
}

/// What a session of several bodies is found to have at its end goes by the count that it was lent with, 1 to the darts
/// numbered: a complete one is closed with any, and one that runs to its end with 1 is refused by 30.
fn lent_bodies_go_on(lent: &mut Lent) {
    lent.begin("lent bodies go on");
    for bodies in [1, 2] {
        lent.take_up(record_with(&[1, 0, 0, 1, 2, 2, 2, 1], (1, bodies)));
        lent.built.lend_copy(&[0, 0, 1, NO]);
        expect_page(lent, &[0x80], if bodies == 1 { refused(30, 4) } else { reading(4, 1, 2) });
        lent.take_up(record_with(&[2, 0, 0, 1, 2, 2, 2, 2], (1, bodies)));
        lent.built.lend_copy(&[0, 0, 1, 1]);
        expect_page(lent, &[], reading(4, 1, 2));
        expect_close(lent, reading(4, 1, 2));
        lent.must(lent.bodies() == bodies as usize, "closing keeps the bodies");
    }
}

/// The session at hand with a form and bodies that it may not have; then it is as before.
#[track_caller]
fn expect_unfit_with(lent: &mut Lent, form: u32, bodies: u32) {
    let record = lent.record();
    lent.take_up(record_with(&record[..15], (form, bodies)));
    expect_page(lent, &[0x00], refused(19, 0));
    expect_close(lent, refused(19, 0));
    lent.take_up(record);
}

/// The session at hand, in the form of several bodies if it has one: with another form, and with each kind of number of
/// bodies that it may not have. Every number of them from 1 to the darts numbered is fit.
#[track_caller]
fn spoil_bodies(lent: &mut Lent) {
    let record = lent.record();
    let (count, bodies) = (record[5], record[16]);
    let walks = matches!(lent.state(), Some(State::Running | State::Complete));
    for form in [2, u32::MAX] {
        expect_unfit_with(lent, form, bodies);
    }
    expect_unfit_with(lent, walks as u32, 65536);
    expect_unfit_with(lent, walks as u32, count + 1);
    expect_unfit_with(lent, !walks as u32, if walks { 2 } else { 0 });
    expect_unfit_with(lent, 1, !walks as u32);
    for fit in 1..=if walks { count } else { 0 } {
        lent.take_up(record_with(&record[..15], (1, fit)));
        let given = give(lent, &[]);
        lent.must(given.is_ok(), "any number of bodies from 1 to the darts numbered is fit");
    }
    lent.take_up(record);
}

/// Two squares and two lone darts, by small pages: after each the session is spoiled in form and bodies, and then goes
/// on as if it had not been; so is it when it is refused. A closed one has any number of bodies, of 16 bits.
fn wrong_forms_and_bodies(lent: &mut Lent) {
    lent.begin("wrong forms and bodies");
    open_in(lent, 60);
    let pages: [&[u8]; 10] =
        [&[], &[0xA0], &[0x11], &[0x01, 0x80, 0x3D], &[0x50], &[0x0C], &[0x03], &[0xEA], &[0xAA], &[0xA8]];
    for page in pages {
        let given = give(lent, page);
        lent.must(given.is_ok(), "the session goes on");
        spoil_bodies(lent);
    }
    lent.must(lent.state() == Some(State::Complete) && lent.bodies() == 4, "the session is complete");
    expect_page(lent, &[0x00], refused(18, 54));
    spoil_bodies(lent);
    open_in(lent, 60);
    expect_page(lent, &[0x90, 0x01, 0xAA], reading(4, 1, 2));
    expect_close(lent, reading(4, 1, 2));
    let record = lent.record();
    lent.take_up(record_with(&record[..15], (1, 65535)));
    expect_close(lent, refused(20, 0));
    expect_unfit_with(lent, 2, 2);
    expect_unfit_with(lent, 1, 65536);
}

// How much to fetch.

/// A symbol that waits, with the first of the fourteen bits 11 and twelve zeros, at the first step of a map of two
/// darts.
fn lend_waiting(lent: &mut Lent, bits: u32) {
    lent.take_up(record_with(&[1, 0, 0, 1, 2, 1, 0, 0, 0, 0, 0, 0, 0, bits, 0x3000 >> (14 - bits)], ONE));
    lent.built.lend_copy(&[NO; 4]);
}

/// A page of fewer bytes than are to be fetched leaves the symbol waiting, with more bits and no step done. How many
/// are to be fetched then.
#[track_caller]
fn expect_waiting(lent: &mut Lent, bits: u32, bytes: &[u8]) -> usize {
    lend_waiting(lent, bits);
    let answer = give_page(lent, bytes);
    lent.expect(answer.map(|a| a.reading), reading(0, 1, 2));
    let waiting = lent.record()[13] as usize == bits as usize + 8 * bytes.len();
    lent.must(lent.state() == Some(State::Running) && waiting, "the symbol waits with more bits");
    answer.map_or(0, |a| a.fetch)
}

/// For each number of bits that wait: no fewer bytes than are said finish the symbol, whatever they are; so many do.
fn fetch_is_least(lent: &mut Lent) {
    lent.begin("bytes to fetch");
    for bits in 0..=13 {
        let fetch = expect_waiting(lent, bits, &[]);
        lent.must(fetch == if (2..=5).contains(&bits) { 2 } else { 1 }, "one byte or two are to be fetched");
        if fetch == 2 {
            for byte in 0..=255 {
                expect_waiting(lent, bits, &[byte]);
            }
        }
        lend_waiting(lent, bits);
        let finished = match give(lent, &[0, 0][..fetch]) {
            Ok(answer) => answer.steps > 0,
            Err(refusal) => refusal.place > 0 || refusal.number == 22,
        };
        lent.must(finished, "steps are done, or the dart named is refused");
    }
}

/// A client that always asks for as many bytes as the last answer said; it begins with a page of none. An accepted
/// stream it reads to its end, and never asks past it.
fn fetch_as_told(lent: &mut Lent, bytes: &[u8], whole: &Whole) {
    open_in(lent, whole.tables.len());
    let (mut at, mut fetch) = (0, give_page(lent, &[]).map_or(0, |a| a.fetch));
    while fetch > 0 && at + fetch <= bytes.len() {
        let answer = give_page(lent, &bytes[at..at + fetch]);
        at += fetch;
        fetch = answer.map_or(0, |a| a.fetch);
    }
    let whole_read = at == bytes.len() && fetch == 0;
    lent.must(whole.answer.is_err() || whole_read, "an accepted stream is read to its end and not past it");
    feed_page(lent, &bytes[at..], whole);
    expect_close_as_whole(lent, whole);
}

fn fetch_each_stream(lent: &mut Lent) {
    for &(name, bytes, room, ..) in READINGS {
        lent.begin(name);
        let whole = read_whole(lent, bytes, room);
        fetch_as_told(lent, bytes, &whole);
    }
}

/// The numbers that the requirements name, byte by byte, up to 0 when complete.
fn fetch_after_each_byte(lent: &mut Lent) {
    lent.begin("bytes to fetch after each byte");
    open_in(lent, 8);
    let pages: [(&[u8], usize); 6] = [(&[], 2), (&[0x10], 1), (&[], 1), (&[0x03], 1), (&[0x18], 2), (&[0x00], 1)];
    for (bytes, fetch) in pages {
        let answer = give_page(lent, bytes);
        lent.must(answer.map(|a| a.fetch) == Ok(fetch), "so many bytes are to be fetched");
    }
    open_in(lent, 4);
    let answer = give_page(lent, &[0x10, 0x01, 0x50]);
    lent.must(answer.map(|a| a.fetch) == Ok(0), "nothing is to be fetched when complete");
}

// Posted maps: refusals.

/// The three calls that take a map, refused alike. Each gets a fresh work room: what one leaves there is not to be
/// taken for the next one's.
#[track_caller]
fn form_refuses(lent: &mut Lent, m: Map, root: usize, number: u32, place: usize) {
    let room = lent.work.length();
    lent.out.lend(9);
    lent.work.lend(room);
    let checked = lent.check(m, root);
    lent.expect(checked, refused(number, place));
    lent.work.lend(room);
    let written = lent.write(m, root, 0);
    lent.expect(written, refused(number, place));
    lent.work.lend(room);
    if root == 0 {
        let reported = lent.report(m);
        lent.expect(reported, refused(number, place));
    }
}

/// The same in both forms, by a number that both have.
#[track_caller]
fn all_refuse(lent: &mut Lent, m: Map, root: usize, number: u32, place: usize) {
    for form in [Form::SeveralBodies, Form::OneBody] {
        lent.form = form;
        form_refuses(lent, m, root, number, place);
    }
}

#[track_caller]
fn accepts(lent: &mut Lent, m: Map, root: usize) {
    let checked = lent.check(m, root);
    lent.expect(checked, Ok(()));
}

/// Numbers whose lower half would pass are refused like any other.
fn numbers_out_of_range(lent: &mut Lent) {
    lent.begin("numbers out of range");
    let m = post_ring(lent, 3);
    for dim in [0, 7, 65536 + 1, WIDE, WIDE + 1, MOST] {
        all_refuse(lent, Map { dim, ..m }, 0, 1, 0);
    }
    for darts in [0, MAX_DARTS + 1, 65536 + 6, WIDE, WIDE + 6, MOST] {
        all_refuse(lent, Map { darts, ..m }, 0, 2, 0);
    }
    for root in [6, 65535, 65536, WIDE, WIDE + 1, MOST] {
        all_refuse(lent, m, root, 5, 0);
    }
}

fn rooms_one_entry_short(lent: &mut Lent) {
    lent.begin("rooms one entry short");
    let m = post_ring(lent, 3);
    lent.posted.shorten(12);
    lent.work.shorten(12);
    accepts(lent, m, 0);
    for length in [11, 0] {
        lent.work.shorten(length);
        all_refuse(lent, m, 0, 4, 0);
    }
    for length in [11, 0] {
        lent.posted.shorten(length);
        all_refuse(lent, m, 0, 3, 0);
    }
}

/// Spoils links of six free darts, from the last rank on, each of a later dart than the one before: the last one is the
/// first by rank, then dart, and is told, though it stands behind all others. Then one of its rank and an earlier dart.
fn told_by_rank_then_dart(lent: &mut Lent, entry: u16, number: u32) {
    let m = post_free(lent, 3, 6);
    for (rank, dart, place) in [(3, 0, 3), (2, 1, 6), (1, 2, 9), (0, 4, 16), (0, 1, 4)] {
        lent.must(m.place(rank, dart) == place, "the links of a dart stand side by side");
        lent.posted.at_mut()[place] = entry;
        all_refuse(lent, m, 0, number, place);
        all_refuse(lent, m, 5, number, place);
    }
}

fn entries_not_below_n(lent: &mut Lent) {
    lent.begin("entries not below n");
    let m = post_ring(lent, 3);
    lent.posted.at_mut()[11] = NO_LINK; // a1(5)
    all_refuse(lent, m, 0, 6, 11);
    lent.posted.at_mut()[4] = 6; // a0(2)
    all_refuse(lent, m, 0, 6, 4);
    told_by_rank_then_dart(lent, 6, 6); // there is no dart 6
}

/// The place is where the link stands that fails, not the entry one would mend.
fn links_not_their_own_inverse(lent: &mut Lent) {
    lent.begin("links not their own inverse");
    let m = post_free(lent, 1, 2);
    lent.posted.at_mut()[0] = 1; // a0(0), and a0(1) is 1
    all_refuse(lent, m, 0, 7, 0);
    let m = post_ring(lent, 3);
    lent.posted.at_mut()[7] = 0; // a1(3)
    all_refuse(lent, m, 0, 7, 7);
    lent.posted.at_mut()[10] = 3; // a0(5), and a0(4) does not lead back
    all_refuse(lent, m, 0, 7, 8);
    told_by_rank_then_dart(lent, 5, 7); // dart 5 stays free: no link to it leads back
}

/// Ranks 0 and 3 break the condition at dart 4, ranks 1 and 3 at dart 0: the pair comes first, then the dart.
fn manifold_condition_by_pair_then_dart(lent: &mut Lent) {
    lent.begin("manifold condition");
    let m = post_free(lent, 3, 7);
    tie(lent, m, 1, 0, 1);
    tie(lent, m, 3, 1, 2);
    all_refuse(lent, m, 0, 8, 0);
    tie(lent, m, 0, 4, 5);
    tie(lent, m, 3, 5, 6);
    all_refuse(lent, m, 0, 8, 4);
}

/// The least dart not reached from the root that was given; the report's root is dart 0.
fn darts_not_reached(lent: &mut Lent) {
    lent.begin("darts not reached");
    let m = post_free(lent, 1, 2);
    form_refuses(lent, m, 0, 9, 1);
    form_refuses(lent, m, 1, 9, 0);
    let m = post_squares(lent, 2);
    form_refuses(lent, m, 0, 9, 8);
    form_refuses(lent, m, 9, 9, 0);
}

/// A posting with the faults of 1 to 10, the first `mended` of them mended: the map, the root and the start to call
/// with.
fn post_faults(lent: &mut Lent, mended: usize) -> (Map, usize, usize) {
    let m = post_free(lent, 2, 6);
    tie(lent, m, 0, 0, 1);
    tie(lent, m, 0, 2, 3);
    tie(lent, m, 0, 4, 5);
    tie(lent, m, 1, 1, 2);
    if mended < 6 {
        lent.posted.at_mut()[17] = 6; // a2(5)
    }
    if mended < 7 {
        lent.posted.at_mut()[10] = 0; // a1(3)
    }
    if mended < 8 {
        tie(lent, m, 2, 2, 4);
    }
    if mended >= 9 {
        tie(lent, m, 1, 3, 4);
    }
    lent.work.shorten(if mended < 4 { 11 } else { 12 });
    lent.posted.shorten(if mended < 3 { 17 } else { 18 });
    let dim = if mended < 1 { 7 } else { 2 };
    let darts = if mended < 2 { MAX_DARTS + 1 } else { 6 };
    let root = if mended < 5 { MOST } else { 0 };
    let start = if mended < 10 { MOST } else { 0 };
    (Map { dim, darts }, root, start)
}

/// Of several faults the first in the order is answered, each test covering the whole tables before the next.
fn faults_in_order(lent: &mut Lent, faults: usize) {
    lent.out.lend(9);
    for (mended, place) in [0, 0, 0, 0, 0, 17, 10, 2, 4].into_iter().take(faults).enumerate() {
        let number = mended as u32 + 1;
        let (m, root, start) = post_faults(lent, mended);
        let checked = lent.check(m, root);
        lent.expect(checked, refused(number, place));
        let written = lent.write(m, root, start);
        lent.expect(written, refused(number, place));
        let reported = lent.report(m);
        lent.expect(reported, if number == 5 { refused(6, 17) } else { refused(number, place) });
    }
    let (m, root, start) = post_faults(lent, faults);
    accepts(lent, m, root);
    let reported = lent.report(m);
    lent.must(reported.is_ok(), "the report is given");
    let length = lent.write(m, root, 0).unwrap().length;
    let written = lent.write(m, root, start);
    lent.expect(written, refused(10, length));
}

fn first_fault_is_answered(lent: &mut Lent) {
    lent.begin("first fault");
    faults_in_order(lent, 9);
    let (m, root, start) = post_faults(lent, 10);
    let written = lent.write(m, root, start);
    lent.must(written.is_ok(), "nothing is left to mend");
}

/// The same in the form of several bodies, which that of the fault 9 is: then 10 is left, and with 9 mended 30.
fn first_fault_of_several_bodies(lent: &mut Lent) {
    lent.begin("first fault, several bodies");
    lent.form = Form::SeveralBodies;
    faults_in_order(lent, 8);
    let (m, root, start) = post_faults(lent, 9);
    form_refuses(lent, m, root, 30, 0);
    let written = lent.write(m, root, start);
    lent.expect(written, refused(30, 0));
}

// Posted maps: the writer.

/// The whole stream of a posted map.
#[track_caller]
fn write_whole(lent: &mut Lent, m: Map, root: usize) -> Vec<u8> {
    lent.out.lend(MAX_STREAM);
    let WriteAnswer { written, length } = lent.write(m, root, 0).unwrap();
    lent.must(written == length, "the stream is whole");
    lent.out.at()[..length].to_vec()
}

#[track_caller]
fn expect_stream(lent: &mut Lent, m: Map, root: usize, bytes: &[u8]) {
    let stream = write_whole(lent, m, root);
    lent.must(stream == bytes, "the stream is the one known");
}

fn known_streams(lent: &mut Lent) {
    lent.begin("known streams");
    let m = post_free(lent, 1, 1);
    expect_stream(lent, m, 0, &[0x10, 0x00, 0xA0]);
    let m = post_chain(lent, 1, 2);
    expect_stream(lent, m, 0, &[0x10, 0x01, 0x50]);
    let m = post_free(lent, 6, 1);
    expect_stream(lent, m, 0, &[0x60, 0x00, 0xAA, 0xA8]);
    let m = post_ring(lent, 3);
    expect_stream(lent, m, 0, &[0x10, 0x05, 0x06, 0x00, 0xA0]);
    expect_stream(lent, m, 3, &[0x10, 0x05, 0x06, 0x00, 0xA0]);
    let m = post_chain(lent, 1, 3);
    expect_stream(lent, m, 0, &[0x10, 0x02, 0x48]);
    expect_stream(lent, m, 2, &[0x10, 0x02, 0x88]);
    lent.form = Form::SeveralBodies;
    let m = post_free(lent, 1, 2);
    expect_stream(lent, m, 0, &[0x90, 0x01, 0xAA]);
    let m = post_free(lent, 6, 2);
    expect_stream(lent, m, 1, &[0xE0, 0x01, 0xAA, 0xAA, 0xAA, 0xA0]);
    let m = post_squares(lent, 2);
    expect_stream(lent, m, 0, &TWO_SQUARES);
    expect_stream(lent, m, 11, &TWO_SQUARES);
    let m = loop_and_chain(lent);
    expect_stream(lent, m, 0, &[0x90, 0x06, 0x60, 0x02, 0x84]);
    expect_stream(lent, m, 1, &[0x90, 0x06, 0x60, 0x02, 0x84]);
    expect_stream(lent, m, 2, &[0x90, 0x06, 0x42, 0x60, 0x0C]);
    expect_stream(lent, m, 6, &[0x90, 0x06, 0x82, 0x60, 0x0C]);
}

/// Pages of one size, each begun where the last one ended, join to the stream.
fn write_pages_of(lent: &mut Lent, m: Map, root: usize, stream: &[u8], size: usize) {
    let mut start = 0;
    while start < stream.len() {
        lent.out.lend(size);
        let WriteAnswer { written, length } = lent.write(m, root, start).unwrap();
        lent.must(length == stream.len() && written > 0, "the stream has its length");
        lent.must(lent.out.at()[..written] == stream[start..start + written], "the page is the stream's");
        start += written;
    }
}

/// No sum of start and room is made before the start is found to be in the stream.
fn starts_at_and_past_the_end(lent: &mut Lent) {
    lent.begin("starts at and past the end");
    let m = post_free(lent, 1, 1);
    lent.out.lend(5);
    for start in 0..=3 {
        let written = lent.write(m, 0, start);
        lent.expect(written, Ok(WriteAnswer { written: 3 - start, length: 3 }));
    }
    for start in [4, 65536, WIDE, WIDE + 1, MOST - 1, MOST] {
        let written = lent.write(m, 0, start);
        lent.expect(written, refused(10, 3));
    }
    lent.out.lend(0);
    let written = lent.write(m, 0, 0);
    lent.expect(written, Ok(WriteAnswer { written: 0, length: 3 }));
    let written = lent.write(m, 0, 4);
    lent.expect(written, refused(10, 3));
}

// Posted maps: there and back.

/// Are the tables built from the stream the posted map's, each dart under its walk number?
fn built_under(lent: &Lent, m: Map, numbers: &[u16]) -> bool {
    let (posted, built) = (lent.posted.at(), lent.built.at());
    (0..m.darts).all(|d| {
        let number = numbers[d] as usize;
        (0..=m.dim).all(|i| built[m.place(i, number)] == numbers[posted[m.place(i, d)] as usize])
    })
}

/// Check, write, read back; then the same by pages, of sizes that do not make too many of them. The stream and its
/// tables.
fn there_and_back(lent: &mut Lent, m: Map, root: usize) -> (Vec<u8>, Vec<u16>) {
    accepts(lent, m, root);
    let numbers = lent.work.at()[..m.darts].to_vec();
    let stream = write_whole(lent, m, root);
    lent.must(lent.work.at()[..m.darts] == numbers, "the writer numbers as the check does");
    let whole = read_whole(lent, &stream, m.entries() + SPARE);
    lent.expect(whole.answer, reading(m.entries(), m.dim, m.darts));
    lent.must(built_under(lent, m, &numbers), "every link is the posted one");
    if stream.len() < 64 {
        feed_cut_everywhere(lent, &stream, &whole);
    }
    if stream.len() <= 200 {
        fetch_as_told(lent, &stream, &whole);
    }
    for size in [1, 2, 3, 7, 64, 5000] {
        if stream.len() <= 200 * size {
            write_pages_of(lent, m, root, &stream, size);
            feed_pages_of(lent, &stream, &whole, size);
        }
    }
    (stream, whole.tables)
}

/// Posts the tables that were built: from dart 0 they have the same stream, and the walk numbers the darts as they
/// stand.
fn post_what_was_built(lent: &mut Lent, m: Map, stream: &[u8], tables: &[u16]) {
    lent.posted.at_mut()[..m.entries()].copy_from_slice(&tables[..m.entries()]);
    expect_stream(lent, m, 0, stream);
    let as_they_stand = lent.work.at()[..m.darts].iter().enumerate().all(|(d, k)| *k as usize == d);
    lent.must(as_they_stand, "the darts are numbered as they stand");
}

#[track_caller]
fn expect_report(lent: &mut Lent, &(_, _, cells, free, orientable): &Sample, m: Map) {
    let reported = lent.report(m);
    lent.expect(reported, Ok(ReportAnswer { cells, free, orientable }));
}

/// A sample from several roots; then what was read back last is posted in turn and reported.
fn samples_there_and_back(lent: &mut Lent) {
    for s in SAMPLES {
        let &(name, post, ..) = s;
        lent.begin(name);
        let m = post(lent);
        expect_report(lent, s, m);
        there_and_back(lent, m, 0);
        if m.darts > 2 {
            there_and_back(lent, m, m.darts / 3);
        }
        if m.darts > 4 {
            there_and_back(lent, m, m.darts / 2 + 1);
        }
        let (stream, tables) = there_and_back(lent, m, m.darts - 1);
        post_what_was_built(lent, m, &stream, &tables);
        expect_report(lent, s, m);
    }
}

// Several bodies.

/// For each dart of the posted map the least that it reaches.
fn bodies_of(lent: &Lent, m: Map) -> Vec<usize> {
    let posted = lent.posted.at();
    let mut body_of = vec![MOST; m.darts];
    for d in 0..m.darts {
        let mut left = vec![d];
        while let Some(e) = left.pop() {
            if body_of[e] == MOST {
                body_of[e] = d;
                left.extend((0..=m.dim).map(|i| posted[m.place(i, e)] as usize));
            }
        }
    }
    body_of
}

/// Does the work room number the bodies one after the other, that of the root first, and each next one from the least
/// dart that has no number before it? How many there are.
#[track_caller]
fn bodies_in_order(lent: &Lent, m: Map, root: usize, body_of: &[usize]) -> usize {
    let (numbers, darts) = lent.work.at()[..2 * m.darts].split_at(m.darts);
    let (mut bodies, mut least) = (1, 0);
    for k in 1..m.darts {
        let (before, dart) = (darts[k - 1] as usize, darts[k] as usize);
        if body_of[dart] != body_of[before] {
            while (numbers[least] as usize) < k {
                least += 1;
            }
            lent.must(dart == least, "a body begins at the least dart without number");
            bodies += 1;
        }
    }
    lent.must(darts[0] as usize == root, "the first body begins at the root");
    bodies
}

/// A site from one root, there and back; in the form of one body the stream ends with the root's body, by 15.
fn site_from_root(lent: &mut Lent, m: Map, root: usize, bodies: usize, body_of: &[usize]) -> (Vec<u8>, Vec<u16>) {
    accepts(lent, m, root);
    let in_order = bodies_in_order(lent, m, root, body_of);
    lent.must(in_order == bodies, "the check finds the bodies");
    let (mut stream, tables) = there_and_back(lent, m, root);
    lent.must(stream[0] as usize / 16 == 8 + m.dim, "the header tells the form");
    lent.must(lent.state() == Some(State::Closed), "the last session is closed");
    lent.must(lent.form_read() == Some(Form::SeveralBodies) && lent.bodies() == bodies, "it has found the bodies");
    let in_first = body_of.iter().filter(|body| **body == body_of[root]).count();
    stream[0] ^= 0x80;
    let whole = read_whole(lent, &stream, m.entries());
    lent.expect(whole.answer, refused(15, (m.dim + 1) * in_first));
    stream[0] ^= 0x80;
    (stream, tables)
}

fn sites_there_and_back(lent: &mut Lent) {
    for (sample, bodies) in SITES {
        let &(name, post, ..) = sample;
        lent.begin(name);
        let m = post(lent);
        let body_of = bodies_of(lent, m);
        form_refuses(lent, m, 0, 9, body_of.iter().position(|body| *body != 0).unwrap());
        lent.form = Form::SeveralBodies;
        expect_report(lent, sample, m);
        for root in [0, m.darts / 3, m.darts / 2] {
            site_from_root(lent, m, root, *bodies, &body_of);
        }
        let (stream, tables) = site_from_root(lent, m, m.darts - 1, *bodies, &body_of);
        post_what_was_built(lent, m, &stream, &tables);
        expect_report(lent, sample, m);
    }
}

/// 30 in all calls: each map of one body is refused in the form of several, and so is its stream.
fn one_body_is_refused(lent: &mut Lent) {
    for &(name, post, ..) in SAMPLES {
        lent.begin(name);
        let m = post(lent);
        let mut stream = write_whole(lent, m, m.darts / 2);
        lent.form = Form::SeveralBodies;
        form_refuses(lent, m, 0, 30, 0);
        form_refuses(lent, m, m.darts - 1, 30, 0);
        let written = lent.write(m, 0, MOST);
        lent.expect(written, refused(30, 0));
        stream[0] |= 0x80;
        let whole = read_whole(lent, &stream, m.entries() + SPARE);
        lent.expect(whole.answer, refused(30, m.entries()));
        feed_pages_of(lent, &stream, &whole, 64);
        if stream.len() < 64 {
            feed_cut_everywhere(lent, &stream, &whole);
        }
    }
}

// Face files.

/// The text before the faces, and the faces: for three vertices and for five.
macro_rules! three {
    ($faces:literal, $rest:literal) => {
        concat!("OFF 3 ", $faces, " 0\n0 0 0\n1 0 0\n0 1 0\n", $rest).as_bytes()
    };
}
macro_rules! five {
    ($faces:literal, $rest:literal) => {
        concat!("OFF 5 ", $faces, " 0 a b c d e f g h i j k l m n o\n", $rest).as_bytes()
    };
}

/// Name, text; number and place; darts, of 9 too, which does not tell them.
type FaceFile = (&'static str, &'static [u8], u32, usize, usize);

static FACE_FILES: &[FaceFile] = &[
    // Words, numbers, blanks and comments.
    ("a triangle", three!("1", "3 0 1 2"), 0, 0, 6),
    ("# within a word", b"OFF 3 1 0 a b c d e f g h i 3#x\n0 1 2", 0, 0, 6),
    ("blanks and comments", b"#\n\r\n\tOFF#FF\n3\t1\r9 # 9\n0 0 0\n\n1 0\n0 #\n0 1\r\n0\n3\t0 # 9\n1\n2", 0, 0, 6),
    ("nine digits", b"OFF 000000003 000000001 999999999 a b c d e f g h i 03 00 000000001 2", 0, 0, 6),
    ("any bytes in a vertex's words", b"OFF 3 1 0 \x0B \xFF \x80 OFF - 1e9 nan .. 0x 3 0 1 2", 0, 0, 6),
    ("no text", b"", 26, 0, 0),
    ("blanks alone", b" \t\r\n", 26, 4, 0),
    ("a comment alone", b"# OFF 3 1 0", 26, 11, 0),
    ("OFFX", b"OFFX 3 1 0", 26, 0, 0),
    ("off", b"\n off", 26, 2, 0),
    ("OF", b"OF F", 26, 0, 0),
    ("a form feed before OFF", b"\x0COFF 3 1 0", 26, 0, 0),
    ("OFF alone", b"OFF", 26, 3, 0),
    ("no edge count", b"OFF 3 1 # 0\n", 26, 12, 0),
    ("3x", b"OFF 3x 1 0", 26, 4, 0),
    ("+3", b"OFF 3 +3 0", 26, 6, 0),
    ("3.0", b"OFF 3 1 3.0", 26, 8, 0),
    ("ten digits", b"OFF 3 1 0 a b c d e f g h i 3 0 1 0000000002", 26, 34, 0),
    // Vertices are words, and not lines.
    ("a fourth word on a vertex line", b"OFF 3 1 0\n0 0 0 9\n1 0 0 9\n0 1 0 9\n3 0 1 2", 28, 0, 0),
    ("vertices across lines", b"OFF 3 1 0\n0\n0 0 1 0\n0 0 1 0\n3 0 1 2", 0, 0, 6),
    ("a vertex word missing", b"OFF 1 0 0 a b", 26, 13, 0),
    ("a vertex word in a comment", b"OFF 1 0 0 a b # c\n", 26, 18, 0),
    ("more vertices than there can be", b"OFF 999999999 1 0 3 0 1 2", 26, 25, 0),
    // A face has the rest of its line to itself.
    ("the rest of a line, and what follows", three!("1", "3 0 1 2 1 2 x # y\n3 0 1"), 0, 0, 6),
    ("two faces on one line", three!("2", "3 0 1 2 3 0 2 1"), 26, 43, 0),
    ("two faces on two lines", three!("2", "3 0 1 2 3 0 2\n3 0 2 1\n"), 0, 0, 12),
    ("CR ends no line", three!("2", "3 0 1 2\r3 0 2 1"), 26, 43, 0),
    ("0 corners, and the rest of the line", three!("2", "0 junk\n3 0 1 2"), 28, 0, 0),
    ("a face missing", three!("2", "3 0 1 2\n "), 26, 37, 0),
    ("a corner missing", three!("1", "3 0 1"), 26, 33, 0),
    ("a corner malformed", three!("1", "3 0 1 -2"), 26, 34, 0),
    ("more faces than there can be", three!("999999999", "3 0 1 2\n"), 26, 44, 0),
    ("more corners than there can be", three!("1", "999999999 0 1 2\n"), 26, 44, 0),
    // 26 anywhere comes before all others; then the first face that is refused, and of its faults 27, 28, 29.
    ("26 in a later face", three!("2", "2 0 9\n3 0 1 x"), 26, 40, 0),
    ("27", three!("1", "3 0 1 3"), 27, 0, 0),
    ("27 in face 1", three!("2", "3 0 1 2\n3 0 999999999 1"), 27, 1, 0),
    ("27 without vertices", b"OFF 0 1 0 3 0 1 2", 27, 0, 0),
    ("two corners", three!("1", "2 0 1"), 28, 0, 0),
    ("one corner", three!("1", "1 0"), 28, 0, 0),
    ("equal neighbours", three!("1", "4 0 1 1 2"), 28, 0, 0),
    ("last and first equal", three!("2", "3 0 1 2\n4 1 2 0 1"), 28, 1, 0),
    ("27 before 28", three!("1", "2 0 9"), 27, 0, 0),
    ("28 before 27 of a later face", three!("2", "2 0 1\n3 0 1 9"), 28, 0, 0),
    ("a side of three faces", five!("3", "3 0 1 2\n3 1 0 3\n3 0 1 4"), 29, 2, 0),
    ("a side three times in one face", five!("1", "5 0 1 0 1 2"), 29, 0, 0),
    ("a side once, then twice in one face", five!("2", "3 0 1 2\n6 0 1 3 1 0 4"), 29, 1, 0),
    ("27 before 29", five!("3", "3 0 1 2\n3 1 0 3\n3 0 1 5"), 27, 2, 0),
    ("28 before 29", five!("3", "3 0 1 2\n3 1 0 3\n4 0 1 4 0"), 28, 2, 0),
    ("29 before 28 of a later face", five!("4", "3 0 1 2\n3 1 0 3\n3 0 1 4\n2 0 1"), 29, 2, 0),
    // Twice is well, in one face and in one direction too.
    ("sides twice in one face", three!("1", "4 0 1 2 1"), 0, 0, 8),
    ("a side twice in one direction", five!("2", "3 0 1 2\n3 0 1 3"), 0, 0, 12),
    // Then 2, and 9 at the end.
    ("nothing", b"OFF 0 0 0", 2, 0, 0),
    ("no faces", three!("0", "3 0 1 2"), 2, 0, 0),
    ("two triangles that meet at a vertex", five!("2", "3 0 1 2\n3 0 3 4"), 9, 6, 12),
    (
        "the second of three apart",
        b"OFF 9 4 0 a b c d e f g h i j k l m n o p q r s t u v w x y z -\n3 0 1 2\n3 3 4 5\n3 0 2 1\n3 6 7 8",
        9,
        6,
        24,
    ),
];

/// Rooms for a map of dimension 2 with so many darts, and `SPARE` entries more.
fn lend_rooms_for(lent: &mut Lent, darts: usize) {
    lent.posted.lend(3 * darts + SPARE);
    lent.work.lend(2 * darts + SPARE);
}

/// The lent text is answered so.
#[track_caller]
fn expect_faces(lent: &mut Lent, expected: Result<FacesAnswer, Refusal>) {
    let given = lent.faces();
    lent.expect(given, expected);
}

/// The lent text is answered so, with 0 or 9, and what the tables then hold is checked once more: the answer and the
/// work room are the check's from root 0.
#[track_caller]
fn expect_as_checked(lent: &mut Lent, darts: usize, expected: Result<FacesAnswer, Refusal>) {
    expect_faces(lent, expected);
    lent.must(lent.darts_of_faces(&expected) == darts, "the map has so many darts");
    let work = lent.work.at()[..2 * darts].to_vec();
    let checked = lent.check(Map { dim: 2, darts }, 0);
    lent.expect(checked, expected.map(|_| ()));
    lent.must(lent.work.at()[..2 * darts] == work, "the work room is the check's");
}

fn read_each_face_file(lent: &mut Lent) {
    for &(name, text, number, place, darts) in FACE_FILES {
        lent.begin(name);
        lent.text.lend_copy(text);
        lend_rooms_for(lent, darts);
        let expected = if number == 0 { Ok(FacesAnswer { darts }) } else { refused(number, place) };
        match darts {
            0 => expect_faces(lent, expected),
            _ => expect_as_checked(lent, darts, expected),
        }
    }
}

/// OFF text of these faces; the vertices are all at one place.
fn off_text(vertices: usize, faces: &[Vec<usize>]) -> Vec<u8> {
    let mut text = format!("OFF {} {} 0\n{}", vertices, faces.len(), "0.25 -1.5 10\n".repeat(vertices));
    for face in faces {
        write!(text, "{}", face.len()).unwrap();
        for vertex in face {
            write!(text, " {vertex}").unwrap();
        }
        text.push('\n');
    }
    text.into_bytes()
}

/// Squares in a grid or, wrapped, a torus, in the order and with the sides of `post_grid`.
fn lend_grid_text(lent: &mut Lent, columns: usize, rows: usize, wrapped: bool) {
    let (across, up) = if wrapped { (columns, rows) } else { (columns + 1, rows + 1) };
    let mut faces = Vec::new();
    for (y, x) in (0..rows).flat_map(|y| (0..columns).map(move |x| (y, x))) {
        let (next, above) = ((x + 1) % across, (y + 1) % up * across);
        faces.push(vec![y * across + x, y * across + next, above + next, above + x]);
    }
    lent.text.lend_copy(&off_text(across * up, &faces));
}

/// The lent text gives these tables.
#[track_caller]
fn expect_tables(lent: &mut Lent, m: Map, tables: &[u16]) {
    lend_rooms_for(lent, m.darts);
    expect_faces(lent, Ok(FacesAnswer { darts: m.darts }));
    lent.must(lent.posted.at()[..m.entries()] == *tables, "the tables are those known");
    expect_as_checked(lent, m.darts, Ok(FacesAnswer { darts: m.darts }));
}

/// The last one has as many darts as a map may have.
fn face_files_of_grids(lent: &mut Lent) {
    lent.begin("face files of grids");
    let grids = [(1, 1, false), (3, 2, false), (1, 7, false), (3, 3, true), (5, 4, true), (32, 16, true)];
    for (columns, rows, wrapped) in grids {
        let m = post_grid(lent, columns, rows, wrapped);
        let tables = lent.posted.at()[..m.entries()].to_vec();
        lend_grid_text(lent, columns, rows, wrapped);
        expect_tables(lent, m, &tables);
    }
}

const CUBE: &[u8] = b"OFF\n8 6 12\n0 0 0\n1 0 0\n1 1 0\n0 1 0\n0 0 1\n1 0 1\n1 1 1\n0 1 1\n\
    4 0 3 2 1\n4 4 5 6 7\n4 0 1 5 4\n4 1 2 6 5\n4 2 3 7 6\n4 3 0 4 7\n";
const BOX: &[u8] = b"OFF\n8 5 12\n0 0 0\n1 0 0\n1 1 0\n0 1 0\n0 0 1\n1 0 1\n1 1 1\n0 1 1\n\
    4 0 3 2 1\n4 0 1 5 4\n4 1 2 6 5\n4 2 3 7 6\n4 3 0 4 7\n";
const STRIP: &[u8] = b"OFF 6 3 9 a b c d e f g h i j k l m n o p q r\n4 0 1 3 2\n4 2 3 5 4\n4 4 5 0 1\n";
const HALF: &[u8] = b"OFF 4 3 6 a b c d e f g h i j k l\n4 0 1 2 3\n4 0 1 3 2\n4 0 2 1 3\n";
const FOLDED: &[u8] = three!("1", "4 0 1 2 1\n");

/// Joined sides: two corners, and whether the sides of these run in one direction.
type Joins = &'static [(usize, usize, bool)];

const CUBE_JOINS: Joins = &[
    (0, 20, false),
    (1, 16, false),
    (2, 12, false),
    (3, 8, false),
    (4, 10, false),
    (5, 14, false),
    (6, 18, false),
    (7, 22, false),
    (9, 15, false),
    (11, 21, false),
    (13, 19, false),
    (17, 23, false),
];
const BOX_JOINS: Joins = &[
    (0, 16, false),
    (1, 12, false),
    (2, 8, false),
    (3, 4, false),
    (5, 11, false),
    (7, 17, false),
    (9, 15, false),
    (13, 19, false),
];
const STRIP_JOINS: Joins = &[(0, 10, true), (2, 4, false), (6, 8, false)];
const HALF_JOINS: Joins = &[(0, 4, true), (1, 9, false), (2, 6, false), (3, 11, true), (5, 10, true), (7, 8, false)];
const FOLDED_JOINS: Joins = &[(0, 3, false), (1, 2, false)];

/// Name, text, squares and their joined sides; cells, free pairs, orientable or not.
type SquaresFile = (&'static str, &'static [u8], usize, Joins, [usize; 3], usize, bool);

static SQUARES_FILES: &[SquaresFile] = &[
    ("cube", CUBE, 6, CUBE_JOINS, [8, 12, 6], 0, true),
    ("open box", BOX, 5, BOX_JOINS, [8, 12, 5], 8, true),
    ("Moebius strip", STRIP, 3, STRIP_JOINS, [6, 9, 3], 12, false),
    ("half a cube, closed", HALF, 3, HALF_JOINS, [4, 6, 3], 0, false),
    ("a square folded up", FOLDED, 1, FOLDED_JOINS, [3, 2, 1], 0, true),
];

/// From text to tables, to report and stream and back. A file's squares have their darts numbered as `post_squares`
/// numbers them.
fn face_files_of_squares(lent: &mut Lent) {
    for &(name, text, squares, joins, cells, free, orientable) in SQUARES_FILES {
        lent.begin(name);
        let m = post_squares(lent, squares);
        for &(c, e, alike) in joins {
            let (first, second) = if alike { (2 * e, 2 * e + 1) } else { (2 * e + 1, 2 * e) };
            tie(lent, m, 2, 2 * c, first);
            tie(lent, m, 2, 2 * c + 1, second);
        }
        let tables = lent.posted.at()[..m.entries()].to_vec();
        lent.text.lend_copy(text);
        expect_tables(lent, m, &tables);
        let [vertices, edges, faces] = cells;
        let reported = lent.report(m);
        lent.expect(reported, Ok(ReportAnswer { cells: [vertices, edges, faces, 0, 0, 0, 0], free, orientable }));
        there_and_back(lent, m, 0);
    }
}

/// The cube's numbering from dart 0, and rooms that are as long as it needs or one entry short. What is short is told
/// after the faces and before 9, the tables first.
fn rooms_for_a_cube(lent: &mut Lent) {
    let numbers = [
        0, 1, 4, 5, 7, 6, 3, 2, 42, 43, 46, 47, 45, 44, 41, 40, 16, 17, 20, 21, 23, 22, 19, 18, 32, 33, 36, 37, 39, 38,
        35, 34, 25, 24, 26, 27, 30, 31, 29, 28, 9, 8, 10, 11, 14, 15, 13, 12,
    ];
    lent.begin("rooms for a cube");
    lent.text.lend_copy(CUBE);
    lent.posted.lend(144);
    lent.work.lend(96);
    expect_faces(lent, Ok(FacesAnswer { darts: 48 }));
    lent.must(lent.work.at()[..48] == numbers, "the numbering is the one known");
    for (tables, work, number) in [(143, 96, 3), (144, 95, 4), (143, 95, 3), (0, 96, 3), (144, 0, 4), (0, 0, 3)] {
        lent.posted.lend(tables);
        lent.work.lend(work);
        expect_faces(lent, refused(number, 0));
    }
    lent.text.lend_copy(three!("2", "3 0 1 2\n3 0 1 3"));
    expect_faces(lent, refused(27, 1));
}

/// Two squares that have no side in common: the tables hold both, though 9 does not tell how many darts they have, and
/// go out in the form of several bodies.
fn squares_apart(lent: &mut Lent) {
    lent.begin("squares apart");
    let m = post_squares(lent, 2);
    let tables = lent.posted.at()[..48].to_vec();
    lent.text.lend_copy(b"OFF 8 2 0 a b c d e f g h i j k l m n o p q r s t u v w x\n4 0 1 2 3\n4 4 5 6 7\n");
    lent.posted.lend(48);
    lent.work.lend(32);
    expect_faces(lent, refused(9, 8));
    lent.must(lent.work.at() == [NO_LINK; 32] && lent.posted.at() == tables, "the tables hold both squares");
    let checked = lent.check(m, 8);
    lent.expect(checked, refused(9, 0));
    lent.form = Form::SeveralBodies;
    accepts(lent, m, 0);
    expect_stream(lent, m, 0, &TWO_SQUARES);
    lent.form = Form::OneBody;
    lent.work.shorten(31);
    expect_faces(lent, refused(4, 0));
}

/// A strip of triangles k, k+1, k+2, each with a side of the next, in which some faces are others: how many faces, the
/// others by their number, and number and place.
type Strip = (usize, &'static [(usize, [usize; 3])], u32, usize);

static STRIPS: &[Strip] = &[
    (682, &[], 0, 0),
    (683, &[], 2, 0),
    (682, &[(681, [1, 2, 684])], 29, 681),
    (684, &[(683, [1, 2, 686])], 29, 683),
    (2101, &[(1000, [0, 2, 2103])], 2, 0),
    (2101, &[(1000, [0, 2, 2103]), (2100, [2, 0, 2104])], 29, 2100),
    (2101, &[(1000, [0, 2, 2103]), (1400, [2, 0, 2104]), (1500, [5, 5, 6])], 29, 1400),
    (2101, &[(1000, [0, 2, 2103]), (1500, [5, 5, 6]), (2100, [2, 0, 2104])], 28, 1500),
    (2101, &[(700, [9, 10, 11]), (2000, [0, 1, 2105])], 29, 700),
    (2101, &[(2000, [0, 1, 2105])], 27, 2000),
];

/// Of more than 2,048 corners too the faces are looked through before 2 is told, with uses of a side far apart.
fn long_face_files(lent: &mut Lent) {
    lent.begin("long face files");
    for &(faces, others, number, place) in STRIPS {
        let mut strip: Vec<_> = (0..faces).map(|k| vec![k, k + 1, k + 2]).collect();
        for &(face, corners) in others {
            strip[face] = corners.to_vec();
        }
        lent.text.lend_copy(&off_text(faces + 4, &strip));
        let darts = if number == 0 { 6 * faces } else { 0 };
        lend_rooms_for(lent, darts);
        match number {
            0 => expect_as_checked(lent, darts, Ok(FacesAnswer { darts })),
            _ => expect_faces(lent, refused(number, place)),
        }
    }
}

// Limits.

fn as_many_darts_as_allowed(lent: &mut Lent) {
    lent.begin("as many darts as allowed");
    let m = post_chain(lent, 1, MAX_DARTS);
    accepts(lent, m, MAX_DARTS - 1);
    lent.posted.shorten(2 * MAX_DARTS - 1);
    all_refuse(lent, m, 0, 3, 0);
    let m = post_chain(lent, 1, MAX_DARTS + 1);
    all_refuse(lent, m, 0, 2, 0);
}

/// The longest stream of a map within the limits, in rooms of exactly the stated sizes.
fn longest_stream(lent: &mut Lent) {
    lent.begin("longest stream");
    let m = post_pairs(lent, MAX_DARTS);
    lent.posted.shorten(MAX_TABLES);
    lent.work.shorten(MAX_WORK);
    let stream = write_whole(lent, m, 0);
    lent.must(stream.len() == 14854, "the length is the longest");
    lent.must(m.place(6, MAX_DARTS - 1) == MAX_TABLES - 1, "the last link stands last");
    let whole = read_whole(lent, &stream, MAX_TABLES);
    lent.expect(whole.answer, reading(MAX_TABLES, 6, MAX_DARTS));
    feed_pages_of(lent, &stream, &whole, 4096);
    let short = read_whole(lent, &stream, MAX_TABLES - 1);
    lent.expect(short.answer, refused(3, 0));
}

/// The longest of several bodies: no stream of this form is longer.
fn longest_stream_of_bodies(lent: &mut Lent) {
    lent.begin("longest stream of several bodies");
    lent.form = Form::SeveralBodies;
    let m = post_couples(lent, MAX_DARTS);
    lent.posted.shorten(MAX_TABLES);
    lent.work.shorten(MAX_WORK);
    let stream = write_whole(lent, m, 0);
    lent.must(stream.len() == 21762, "the length is the longest");
    let whole = read_whole(lent, &stream, MAX_TABLES);
    lent.expect(whole.answer, reading(MAX_TABLES, 6, MAX_DARTS));
    feed_pages_of(lent, &stream, &whole, 4096);
    let short = read_whole(lent, &stream, MAX_TABLES - 1);
    lent.expect(short.answer, refused(3, 0));
}

// Texts.

/// A refusal prints as its number, its place and the text of `kz_message`, which the guide lists by number.
#[test]
fn refusals_print_the_texts_of_the_guide() {
    let guide = include_str!("../../../docs/GUIDE.md");
    let mut listed = Vec::new();
    for row in guide.lines().filter_map(|line| line.strip_prefix("| ")?.strip_suffix(" |")) {
        let (first, text) = row.split_once(" | ").expect("a row of two columns");
        if let Ok(number) = first.parse() {
            let refusal = Refusal { number, place: 7 };
            assert_eq!(refusal.message(), text);
            assert_eq!(refusal.to_string(), format!("refused {number} at 7: {text}"));
            listed.push(number as usize);
        }
    }
    assert_eq!(listed, (0..NUMBERS).filter(|k| is_number(*k)).collect::<Vec<_>>());
    for number in [24, 25, NUMBERS as u32, u32::MAX] {
        assert_eq!(Refusal { number, place: 0 }.message(), "there is no refusal of this number");
    }
}
