//! A safe wrapper of the proved library for generalised maps, for x86-64 Linux.
//!
//! It links `libkanzhulet.a`: build with the environment variable KANZHULET_LIB naming the folder that has it, after
//! `./install PREFIX` that is `PREFIX/lib`.
//!
//! A map of dimension N (1 to 6) has n darts (1 to 4,096), 0 to n-1, and N+1 links a0..aN for each dart. Its tables are
//! 16-bit numbers, the links of a dart side by side: ai(d) stands at position d·(N+1) + i, which [`place`] gives, and
//! ai(d) = d says that dart d is free at rank i. In tables that are being read, [`NO_LINK`] says "no link yet".
//! `include/kanzhulet.h` says in full what each call stores; this wrapper calls it and adds no behaviour.
//!
//! A body is all that some dart reaches by links; a connected map is one body. [`check`], [`write()`] and [`report`]
//! take maps of one body, [`check_bodies`], [`write_bodies`] and [`report_bodies`] those of several, whose streams have
//! a form of their own. [`read`] and a [`Session`] take streams of both forms, and [`Session::form`] tells which it is.
//!
//! Every call takes all values of its numbers and all contents of its slices, and allocates nothing. A call that is not
//! accepted gives a [`Refusal`].
//!
//! ```
//! // One square: dimension 2, eight darts, 2s and 2s+1 the two ends of side s, every dart free at rank 2.
//! let square = [1, 7, 0, 0, 2, 1, 3, 1, 2, 2, 4, 3, 5, 3, 4, 4, 6, 5, 7, 5, 6, 6, 0, 7];
//! let (mut work, mut out) = ([0; 16], [0; 64]);
//! let written = kanzhulet::write(2, 8, 0, 0, &square, &mut work, &mut out)?;
//! let mut tables = [0; 24];
//! let read = kanzhulet::read(&out[..written.written], &mut tables)?;
//! assert_eq!((read.dim, read.darts, read.steps), (2, 8, 24));
//! assert_eq!(tables[kanzhulet::place(2, 1, 0)], 2); // a1(0): dart k is now the k-th that the walk met
//! let report = kanzhulet::report(2, 8, &tables, &mut work)?;
//! assert_eq!((report.cells, report.free), ([4, 4, 1, 0, 0, 0, 0], 8));
//! # Ok::<(), kanzhulet::Refusal>(())
//! ```

#![deny(missing_docs)]

use std::error::Error;
use std::ffi::CStr;
use std::fmt;

/// The highest dimension.
pub const MAX_DIM: usize = 6;
/// The greatest number of darts.
pub const MAX_DARTS: usize = 4096;
/// Entries of tables that are long enough for every map.
pub const MAX_TABLES: usize = 28672;
/// Entries of a work room that is long enough for every map.
pub const MAX_WORK: usize = 8192;
/// Bytes; no stream is longer.
pub const MAX_STREAM: usize = 50178;
/// The entry that says "no link yet".
pub const NO_LINK: u16 = 65535;
/// How many numbers a session's record has.
pub const RECORD: usize = 17;

mod surface {
    //! The calls of `kanzhulet.h`.

    use super::RECORD;
    use std::os::raw::c_char;

    extern "C" {
        pub fn kz_check(
            dim: u64,
            darts: u64,
            root: u64,
            tables: *const u16,
            tables_length: usize,
            work: *mut u16,
            work_length: usize,
            answer: *mut [u32; 2],
        ) -> u32;
        pub fn kz_check_bodies(
            dim: u64,
            darts: u64,
            root: u64,
            tables: *const u16,
            tables_length: usize,
            work: *mut u16,
            work_length: usize,
            answer: *mut [u32; 2],
        ) -> u32;
        pub fn kz_faces(
            text: *const u8,
            text_length: usize,
            tables: *mut u16,
            tables_length: usize,
            work: *mut u16,
            work_length: usize,
            answer: *mut [u64; 3],
        ) -> u32;
        pub fn kz_write(
            dim: u64,
            darts: u64,
            root: u64,
            start: u64,
            tables: *const u16,
            tables_length: usize,
            work: *mut u16,
            work_length: usize,
            out: *mut u8,
            out_length: usize,
            answer: *mut [u32; 4],
        ) -> u32;
        pub fn kz_write_bodies(
            dim: u64,
            darts: u64,
            root: u64,
            start: u64,
            tables: *const u16,
            tables_length: usize,
            work: *mut u16,
            work_length: usize,
            out: *mut u8,
            out_length: usize,
            answer: *mut [u32; 4],
        ) -> u32;
        pub fn kz_read(
            bytes: *const u8,
            bytes_length: usize,
            tables: *mut u16,
            tables_length: usize,
            answer: *mut [u32; 5],
        ) -> u32;
        pub fn kz_open(record: *mut [u32; RECORD]);
        pub fn kz_page(
            record: *mut [u32; RECORD],
            bytes: *const u8,
            bytes_length: usize,
            tables: *mut u16,
            tables_length: usize,
            answer: *mut [u32; 6],
        ) -> u32;
        pub fn kz_close(
            record: *mut [u32; RECORD],
            tables: *mut u16,
            tables_length: usize,
            answer: *mut [u32; 5],
        ) -> u32;
        pub fn kz_report(
            dim: u64,
            darts: u64,
            tables: *const u16,
            tables_length: usize,
            work: *mut u16,
            work_length: usize,
            answer: *mut [u32; 11],
        ) -> u32;
        pub fn kz_report_bodies(
            dim: u64,
            darts: u64,
            tables: *const u16,
            tables_length: usize,
            work: *mut u16,
            work_length: usize,
            answer: *mut [u32; 11],
        ) -> u32;
        pub fn kz_message(number: u32) -> *const c_char;
    }
}

/// A call that was not accepted: by which number, at which place. Every other number of its answer is 0, but for the
/// steps of a reading, which are the place.
#[derive(Clone, Copy, Debug, PartialEq, Eq)]
pub struct Refusal {
    /// The refusal number, 1 to 23 or 26 to 30, as `kanzhulet.h` lists them.
    pub number: u32,
    /// The place that goes with the number: a position in the tables, as [`place`](place()) gives it, a dart, a
    /// stream's length or the steps done; of a face file a byte of the text or the number of a face.
    pub place: usize,
}

impl Refusal {
    /// The number in words, and in brackets what the place is: the text of `kz_message`.
    pub fn message(&self) -> &'static str {
        // SAFETY: every number has a text, which is the library's own, ends with a zero byte and never changes.
        let text = unsafe { CStr::from_ptr(surface::kz_message(self.number)) };
        text.to_str().expect("the library's texts are ASCII")
    }
}

impl fmt::Display for Refusal {
    fn fmt(&self, f: &mut fmt::Formatter<'_>) -> fmt::Result {
        write!(f, "refused {} at {}: {}", self.number, self.place, self.message())
    }
}

impl Error for Refusal {}

/// The answer of an accepted [`check`] or [`check_bodies`]: the numbering that the work room holds.
#[derive(Clone, Copy, Debug, PartialEq, Eq)]
pub struct CheckAnswer<'a> {
    /// The walk number of each dart.
    pub walk_numbers: &'a [u16],
    /// The dart of each walk number.
    pub darts: &'a [u16],
}

/// The answer of an accepted [`faces`].
#[derive(Clone, Copy, Debug, PartialEq, Eq)]
pub struct FacesAnswer {
    /// The number of darts: two for each corner.
    pub darts: usize,
}

/// The answer of an accepted [`write()`] or [`write_bodies`].
#[derive(Clone, Copy, Debug, PartialEq, Eq)]
pub struct WriteAnswer {
    /// How many bytes were written, from the beginning of the output.
    pub written: usize,
    /// The length of the whole stream.
    pub length: usize,
}

/// The answer of an accepted reading, or that part of a page's answer after which the session waits for more.
#[derive(Clone, Copy, Debug, PartialEq, Eq)]
pub struct ReadAnswer {
    /// The steps done so far.
    pub steps: usize,
    /// The dimension; 0 until a header is accepted.
    pub dim: usize,
    /// The number of darts; 0 until a header is accepted.
    pub darts: usize,
}

/// The answer of a page that was accepted, or after which the session waits for more.
#[derive(Clone, Copy, Debug, PartialEq, Eq)]
pub struct PageAnswer {
    /// How far the reading has come.
    pub reading: ReadAnswer,
    /// The least number of bytes that could finish the header or the symbol that waits: 2 on a new session, 1 after one
    /// header byte, 1 or 2 while the walk runs, and 0 when the stream is complete. Of an accepted stream at least so
    /// many bytes are left: who always asks for just these reads it to its end and never asks past it.
    pub fetch: usize,
}

/// The answer of an accepted [`report`] or [`report_bodies`].
#[derive(Clone, Copy, Debug, PartialEq, Eq)]
pub struct ReportAnswer {
    /// The number of i-cells at place i, 0 past the dimension.
    pub cells: [usize; MAX_DIM + 1],
    /// The number of free (rank, dart) pairs.
    pub free: usize,
    /// Can the darts be put in two classes so that every link from a dart to another one goes to the other class? The
    /// link of a free dart, to itself, is left out: an open square is orientable, a Moebius band is not.
    pub orientable: bool,
}

/// What stage a session is in.
#[derive(Clone, Copy, Debug, PartialEq, Eq)]
pub enum State {
    /// The two header bytes are not both there.
    Header,
    /// The walk has steps left.
    Running,
    /// The walk has ended, and the session may be closed.
    Complete,
    /// The session was closed and accepted.
    Closed,
    /// The session was refused, and repeats the refusal.
    Refused(Refusal),
}

/// The form of a stream, which its first bit tells.
#[derive(Clone, Copy, Debug, PartialEq, Eq)]
pub enum Form {
    /// Of a connected map: the first four bits are N.
    OneBody,
    /// Of a map of two or more bodies: the first four bits are 8+N.
    SeveralBodies,
}

/// The position of ai(d) in the tables of a map of dimension N: d·(N+1) + i. Refusals 6 and 7 tell such a position; its
/// dart is that place / (N+1), its rank place % (N+1).
///
/// ```
/// // Dimension 1, two darts: a1(1) is 0, and a1(0) is not 1.
/// let refusal = kanzhulet::check(1, 2, 0, &[1, 0, 0, 0], &mut [0; 4]).unwrap_err();
/// assert_eq!((refusal.number, refusal.place), (7, kanzhulet::place(1, 1, 1)));
/// ```
pub const fn place(dim: usize, rank: usize, dart: usize) -> usize {
    dart * (dim + 1) + rank
}

/// A call's number and place, of 32 or 64 bits, as a `Result`. The number that is returned is also the first that is
/// stored.
fn accepted(number: u32, place: impl Into<u64>) -> Result<(), Refusal> {
    match number {
        0 => Ok(()),
        _ => Err(Refusal { number, place: place.into() as usize }),
    }
}

/// A reading's returned number and stored answer as a `Result`.
fn reading(number: u32, answer: [u32; 5]) -> Result<ReadAnswer, Refusal> {
    let [_, place, steps, dim, darts] = answer;
    accepted(number, place)?;
    Ok(ReadAnswer { steps: steps as usize, dim: dim as usize, darts: darts as usize })
}

/// `kz_check` or `kz_check_bodies`.
type CheckCall = unsafe extern "C" fn(u64, u64, u64, *const u16, usize, *mut u16, usize, *mut [u32; 2]) -> u32;

fn check_by<'a>(
    call: CheckCall,
    dim: usize,
    darts: usize,
    root: usize,
    tables: &[u16],
    work: &'a mut [u16],
) -> Result<CheckAnswer<'a>, Refusal> {
    let mut answer = [0; 2];
    // SAFETY: each pointer is not null, aligned, and good for as many elements as its length says, as it comes from a
    // slice that is borrowed over the call. What the call may write is borrowed as mutable, so it overlaps nothing else
    // and no other thread touches it.
    let number = unsafe {
        call(
            dim as u64,
            darts as u64,
            root as u64,
            tables.as_ptr(),
            tables.len(),
            work.as_mut_ptr(),
            work.len(),
            &mut answer,
        )
    };
    accepted(number, answer[1])?;
    let (walk_numbers, rest) = work.split_at(darts);
    Ok(CheckAnswer { walk_numbers, darts: &rest[..darts] })
}

/// The check of posted tables, from a root: are they a valid connected map? Needs (N+1)·n entries of tables and 2n of
/// work room; longer slices are allowed, and what is past these is neither read nor written.
///
/// Refused by 1 to 9. Of several links that fail, 6 and 7 tell the first by rank, then dart. After 1 to 8 the work room
/// is unchanged, after 9 its first 2n entries are [`NO_LINK`].
pub fn check<'a>(
    dim: usize,
    darts: usize,
    root: usize,
    tables: &[u16],
    work: &'a mut [u16],
) -> Result<CheckAnswer<'a>, Refusal> {
    check_by(surface::kz_check, dim, darts, root, tables, work)
}

/// The check of a map of several bodies: are the tables a valid map of at least two? The root's body is numbered first;
/// each next one begins at the least dart that has no walk number yet. Tables and work room are as for [`check`].
///
/// Refused by 1 to 8 as [`check`], then by 30, at 0, if there is one body only, which leaves the work room as 9 does. 9
/// is never given.
///
/// ```
/// // Dimension 1, two darts that nothing joins.
/// let (apart, mut work) = ([0, 0, 1, 1], [0; 4]);
/// assert_eq!(kanzhulet::check(1, 2, 1, &apart, &mut work).unwrap_err().number, 9);
/// assert_eq!(kanzhulet::check_bodies(1, 2, 1, &apart, &mut work)?.walk_numbers, [1, 0]);
/// # Ok::<(), kanzhulet::Refusal>(())
/// ```
pub fn check_bodies<'a>(
    dim: usize,
    darts: usize,
    root: usize,
    tables: &[u16],
    work: &'a mut [u16],
) -> Result<CheckAnswer<'a>, Refusal> {
    check_by(surface::kz_check_bodies, dim, darts, root, tables, work)
}

/// Posting from a face file: reads OFF text into the tables of a map of dimension 2 and checks it from root 0.
/// `kanzhulet.h` says what such a text is. Corners are numbered over all faces in file order; corner c gives the darts
/// 2c, at its own vertex, and 2c+1, at the next corner of its face. Needs 3n entries of tables and 2n of work room;
/// longer slices are allowed, and what is past these is neither read nor written. The call needs some 64 KiB of stack.
///
/// Refused by 26 over the whole text, at a byte of it or its length; then face by face, at the face's number from 0, by
/// 27, 28 and 29; then by 2, 3, 4 and 9. After an accepted call and after 9 the tables hold the map, and the work room
/// is as after [`check`]; every other refusal leaves both unchanged. A map refused by 9 goes out by [`write_bodies`].
///
/// ```
/// let text = b"OFF 4 4 6 # a tetrahedron\n0 0 0\n1 0 0\n0 1 0\n0 0 1\n3 0 2 1\n3 0 1 3\n3 1 2 3\n3 2 0 3\n";
/// let (mut tables, mut work, mut out) = ([0; 72], [0; 48], [0; 64]);
/// let darts = kanzhulet::faces(text, &mut tables, &mut work)?.darts;
/// let sent = kanzhulet::write(2, darts, 0, 0, &tables, &mut work, &mut out)?;
/// assert_eq!((darts, sent.written), (24, 18));
/// let refusal = kanzhulet::faces(b"OFF 3 1 3 0 0 0 1 0 0 0 1 0 3 0 1 3", &mut tables, &mut work).unwrap_err();
/// assert_eq!((refusal.number, refusal.place), (27, 0));
/// # Ok::<(), kanzhulet::Refusal>(())
/// ```
pub fn faces(text: &[u8], tables: &mut [u16], work: &mut [u16]) -> Result<FacesAnswer, Refusal> {
    let mut answer = [0; 3];
    // SAFETY: as in `check_by`; the call may write the tables too, which are borrowed as mutable.
    let number = unsafe {
        surface::kz_faces(
            text.as_ptr(),
            text.len(),
            tables.as_mut_ptr(),
            tables.len(),
            work.as_mut_ptr(),
            work.len(),
            &mut answer,
        )
    };
    let [_, place, darts] = answer;
    accepted(number, place)?;
    Ok(FacesAnswer { darts: darts as usize })
}

/// `kz_write` or `kz_write_bodies`.
type WriteCall =
    unsafe extern "C" fn(u64, u64, u64, u64, *const u16, usize, *mut u16, usize, *mut u8, usize, *mut [u32; 4]) -> u32;

/// A map that is posted, and the root and start of a page.
struct Posting<'a> {
    dim: usize,
    darts: usize,
    root: usize,
    start: usize,
    tables: &'a [u16],
}

fn write_by(call: WriteCall, posting: Posting, work: &mut [u16], out: &mut [u8]) -> Result<WriteAnswer, Refusal> {
    let Posting { dim, darts, root, start, tables } = posting;
    let mut answer = [0; 4];
    // SAFETY: as in `check_by`; `out` too is borrowed as mutable over the call.
    let number = unsafe {
        call(
            dim as u64,
            darts as u64,
            root as u64,
            start as u64,
            tables.as_ptr(),
            tables.len(),
            work.as_mut_ptr(),
            work.len(),
            out.as_mut_ptr(),
            out.len(),
            &mut answer,
        )
    };
    let [_, place, written, length] = answer;
    accepted(number, place)?;
    Ok(WriteAnswer { written: written as usize, length: length as usize })
}

/// The paged writer: the bytes of the map's stream from byte `start` on, as many as `out` holds or the stream has. A
/// start equal to the length is accepted and writes nothing. Tables and work room are as for [`check`].
///
/// Refused by 1 to 9 as [`check`], then by 10, at the stream's length, if the start is past it. A refusal leaves `out`
/// unchanged. After an accepted call and after 10 the first n entries of the work room are each dart's walk number, the
/// next n the dart of each number.
pub fn write(
    dim: usize,
    darts: usize,
    root: usize,
    start: usize,
    tables: &[u16],
    work: &mut [u16],
    out: &mut [u8],
) -> Result<WriteAnswer, Refusal> {
    write_by(surface::kz_write, Posting { dim, darts, root, start, tables }, work, out)
}

/// The paged writer of a map of several bodies, in the form of several bodies: as [`write()`], but with the refusals
/// and the numbering of [`check_bodies`].
pub fn write_bodies(
    dim: usize,
    darts: usize,
    root: usize,
    start: usize,
    tables: &[u16],
    work: &mut [u16],
    out: &mut [u8],
) -> Result<WriteAnswer, Refusal> {
    write_by(surface::kz_write_bodies, Posting { dim, darts, root, start, tables }, work, out)
}

/// One whole read: accepts exactly the streams that some valid map within the limits has from some root, a connected
/// one in the form of one body and one of at least two bodies in the form of several, and builds that map under its
/// walk numbering in the first (N+1)·n entries of the tables.
///
/// Refused by 1, 3, 11, 13 to 18, 21 to 23 and 30. A dart that the stream names and may not is refused by its cause:
/// 21, it has no number yet; 22, it is the dart itself; 23, it has a link at this rank already. 30, in 15's place, is
/// for a stream in the form of several bodies that has one only. Once a header is accepted, a refusal leaves
/// [`NO_LINK`] in the first (N+1)·n entries; before, it leaves the tables unchanged.
pub fn read(bytes: &[u8], tables: &mut [u16]) -> Result<ReadAnswer, Refusal> {
    let mut answer = [0; 5];
    // SAFETY: as in `check_by`; the call may write the tables, which are borrowed as mutable.
    let number =
        unsafe { surface::kz_read(bytes.as_ptr(), bytes.len(), tables.as_mut_ptr(), tables.len(), &mut answer) };
    reading(number, answer)
}

/// `kz_report` or `kz_report_bodies`.
type ReportCall = unsafe extern "C" fn(u64, u64, *const u16, usize, *mut u16, usize, *mut [u32; 11]) -> u32;

fn report_by(
    call: ReportCall,
    dim: usize,
    darts: usize,
    tables: &[u16],
    work: &mut [u16],
) -> Result<ReportAnswer, Refusal> {
    let mut answer = [0; 11];
    // SAFETY: as in `check_by`.
    let number = unsafe {
        call(dim as u64, darts as u64, tables.as_ptr(), tables.len(), work.as_mut_ptr(), work.len(), &mut answer)
    };
    let [_, place, c0, c1, c2, c3, c4, c5, c6, free, orientable] = answer;
    accepted(number, place)?;
    Ok(ReportAnswer {
        cells: [c0, c1, c2, c3, c4, c5, c6].map(|count| count as usize),
        free: free as usize,
        orientable: orientable == 1,
    })
}

/// The cell report of a map. Tables and work room are as for [`check`].
///
/// Refused by 1 to 4 and 6 to 9, as [`check`] with root 0. After an accepted call the first 2n entries of the work room
/// are [`NO_LINK`].
pub fn report(dim: usize, darts: usize, tables: &[u16], work: &mut [u16]) -> Result<ReportAnswer, Refusal> {
    report_by(surface::kz_report, dim, darts, tables, work)
}

/// The cell report of a map of several bodies: cells and free pairs over all of them, orientable if every one is.
/// Tables and work room are as for [`report`].
///
/// Refused by 1 to 4, 6 to 8 and 30, as [`check_bodies`] with root 0.
pub fn report_bodies(dim: usize, darts: usize, tables: &[u16], work: &mut [u16]) -> Result<ReportAnswer, Refusal> {
    report_by(surface::kz_report_bodies, dim, darts, tables, work)
}

/// A session reads one stream by pages of any sizes: open, any number of pages, close. The caller lends the same tables
/// to each call and writes nothing to them in between.
///
/// What closing answers, and the tables then, are those of one [`read`] of all the bytes, wherever they were cut.
#[derive(Clone, Debug, PartialEq, Eq)]
pub struct Session {
    record: [u32; RECORD],
}

impl Session {
    /// A new session, which waits for a header.
    pub fn open() -> Session {
        let mut record = [0; RECORD];
        // SAFETY: the record is borrowed as mutable over the call.
        unsafe {
            surface::kz_open(&mut record);
        }
        Session { record }
    }

    /// The next page of the stream. Every step is done that needs no bit beyond those seen.
    ///
    /// Refused by 19 if the session is not fit, or the tables do not go with it; by 20 if it is closed; else as
    /// [`read`] but for 11. A refused session repeats its refusal; 12, which no reading gives any more, is only so
    /// answered, to a record that was refused with it.
    ///
    /// A client that asks for no more bytes than are needed, of a feed that gives as many as it is asked for:
    ///
    /// ```
    /// let feed = [0x10, 0x01, 0x50];
    /// let (mut session, mut tables) = (kanzhulet::Session::open(), [0; 4]);
    /// let (mut at, mut fetch) = (0, 2);
    /// while fetch > 0 {
    ///     let page = &feed[at..feed.len().min(at + fetch)];
    ///     if page.is_empty() {
    ///         break; // the feed ended early: closing answers 11
    ///     }
    ///     at += page.len();
    ///     fetch = session.page(page, &mut tables)?.fetch;
    /// }
    /// assert_eq!(session.close(&mut tables)?.steps, 4);
    /// # Ok::<(), kanzhulet::Refusal>(())
    /// ```
    pub fn page(&mut self, bytes: &[u8], tables: &mut [u16]) -> Result<PageAnswer, Refusal> {
        let mut answer = [0; 6];
        // SAFETY: as in `read`; the record too is borrowed as mutable over the call.
        let number = unsafe {
            surface::kz_page(
                &mut self.record,
                bytes.as_ptr(),
                bytes.len(),
                tables.as_mut_ptr(),
                tables.len(),
                &mut answer,
            )
        };
        let [stored, place, steps, dim, darts, fetch] = answer;
        let reading = reading(number, [stored, place, steps, dim, darts])?;
        Ok(PageAnswer { reading, fetch: fetch as usize })
    }

    /// The end of the stream. Accepted if the whole stream was read; refused by 11 if it is cut, and as
    /// [`Session::page`] otherwise.
    pub fn close(&mut self, tables: &mut [u16]) -> Result<ReadAnswer, Refusal> {
        let mut answer = [0; 5];
        // SAFETY: as in `page`.
        let number = unsafe { surface::kz_close(&mut self.record, tables.as_mut_ptr(), tables.len(), &mut answer) };
        reading(number, answer)
    }

    /// The session's state; `None` if the record came from elsewhere and has no such state.
    pub fn state(&self) -> Option<State> {
        match self.record[0] {
            0 => Some(State::Header),
            1 => Some(State::Running),
            2 => Some(State::Complete),
            3 => Some(State::Closed),
            4 => Some(State::Refused(Refusal { number: self.record[1], place: self.record[2] as usize })),
            _ => None,
        }
    }

    /// The form of the stream, which its header tells: [`Form::OneBody`] until one is accepted and when the session is
    /// refused; `None` if the record came from elsewhere and has no such form.
    ///
    /// ```
    /// // Two darts that nothing joins, in dimension 1.
    /// let (mut session, mut tables) = (kanzhulet::Session::open(), [0; 4]);
    /// session.page(&[0x90, 0x01, 0xAA], &mut tables)?;
    /// assert_eq!((session.form(), session.bodies()), (Some(kanzhulet::Form::SeveralBodies), 2));
    /// # Ok::<(), kanzhulet::Refusal>(())
    /// ```
    pub fn form(&self) -> Option<Form> {
        match self.record[15] {
            0 => Some(Form::OneBody),
            1 => Some(Form::SeveralBodies),
            _ => None,
        }
    }

    /// How many bodies have begun: 0 until a header is accepted and when the session is refused; of a stream that was
    /// read to its end, how many it has.
    pub fn bodies(&self) -> usize {
        self.record[16] as usize
    }

    /// The seventeen numbers that are the session, as `kanzhulet.h` lists them. Together with the tables they may be
    /// stored and carried on later, by another process too.
    pub fn record(&self) -> [u32; RECORD] {
        self.record
    }

    /// The session of a stored record. Any numbers may be given: those that no session stands for are refused by 19
    /// when they are used.
    pub fn from_record(record: [u32; RECORD]) -> Session {
        Session { record }
    }
}
