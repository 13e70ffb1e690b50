//! The frame of the surface tests: rooms lent between guards, and one function for each call of the library. Such a
//! function lends the rooms, makes the call, and checks what `kanzhulet.h` says of every such call, whatever was lent.
//! The cases in `calls.rs` add what they know about their own input.

use kanzhulet::{
    FacesAnswer, Form, PageAnswer, ReadAnswer, Refusal, ReportAnswer, Session, State, WriteAnswer, MAX_DARTS, MAX_DIM,
    NO_LINK, RECORD,
};

pub const GUARD: usize = 32;
pub const SPARE: usize = 32;
/// 0 and the refusal numbers.
pub const NUMBERS: usize = 31;
const CANARY: u8 = 0xA5;

/// Is it 0 or a refusal's? Between them are two numbers that are not.
pub fn is_number(number: usize) -> bool {
    number < NUMBERS && number != 24 && number != 25
}

/// A slice between two guards, and what it held before the call.
pub struct Room<T> {
    hold: Vec<T>,
    was: Vec<T>,
}

impl<T: Copy + PartialEq + From<u8>> Room<T> {
    fn new() -> Room<T> {
        let mut room = Room { hold: Vec::new(), was: Vec::new() };
        room.lend(0);
        room
    }

    /// Lends so many elements. What they hold differs from place to place, so that an element moved is seen as well as
    /// one set.
    pub fn lend(&mut self, length: usize) {
        self.hold = vec![T::from(CANARY); GUARD];
        self.hold.extend((0..length).map(|k| T::from((7 * k + 1) as u8)));
        self.hold.extend([T::from(CANARY); GUARD]);
    }

    pub fn lend_copy(&mut self, elements: &[T]) {
        self.lend(elements.len());
        self.at_mut().copy_from_slice(elements);
    }

    /// Takes the end of the lent slice back; what it holds before that stays.
    pub fn shorten(&mut self, length: usize) {
        let kept = self.at()[..length].to_vec();
        self.lend_copy(&kept);
    }

    pub fn length(&self) -> usize {
        self.hold.len() - 2 * GUARD
    }

    pub fn at(&self) -> &[T] {
        &self.hold[GUARD..self.hold.len() - GUARD]
    }

    pub fn at_mut(&mut self) -> &mut [T] {
        let past = self.hold.len() - GUARD;
        &mut self.hold[GUARD..past]
    }

    fn before_call(&mut self) {
        self.was = self.at().to_vec();
    }

    fn guarded(&self) -> bool {
        let canary = |element: &T| *element == T::from(CANARY);
        self.hold[..GUARD].iter().all(canary) && self.hold[self.hold.len() - GUARD..].iter().all(canary)
    }

    /// From this element on, is the slice as it was before the call?
    pub fn kept_from(&self, element: usize) -> bool {
        self.at()[element..] == self.was[element..]
    }

    pub fn kept(&self) -> bool {
        self.kept_from(0)
    }
}

#[derive(Clone, Copy)]
pub struct Map {
    pub dim: usize,
    pub darts: usize,
}

impl Map {
    pub fn entries(self) -> usize {
        (self.dim + 1) * self.darts
    }

    pub fn place(self, rank: usize, dart: usize) -> usize {
        kanzhulet::place(self.dim, rank, dart)
    }
}

pub fn refused<T>(number: u32, place: usize) -> Result<T, Refusal> {
    Err(Refusal { number, place })
}

/// The number that an answer has.
pub fn number_of<T>(answer: &Result<T, Refusal>) -> u32 {
    match answer {
        Ok(_) => 0,
        Err(refusal) => refusal.number,
    }
}

fn no_link(entries: &[u16]) -> bool {
    entries.iter().all(|entry| *entry == NO_LINK)
}

/// All rooms that are lent to calls, and the numbers that some call has answered.
pub struct Lent {
    what: &'static str,
    /// The form in which the calls on a posted map are made.
    pub form: Form,
    pub seen: [bool; NUMBERS],
    pub posted: Room<u16>,
    pub built: Room<u16>,
    pub work: Room<u16>,
    pub out: Room<u8>,
    pub page: Room<u8>,
    pub text: Room<u8>,
    sessions: [Session; 3],
}

/// A record that stands on both sides of the session that is used.
const BESIDE: [u32; RECORD] = [0xA5A5_A5A5; RECORD];

impl Lent {
    pub fn new() -> Lent {
        let beside = || Session::from_record(BESIDE);
        Lent {
            what: "",
            form: Form::OneBody,
            seen: [false; NUMBERS],
            posted: Room::new(),
            built: Room::new(),
            work: Room::new(),
            out: Room::new(),
            page: Room::new(),
            text: Room::new(),
            sessions: [beside(), Session::open(), beside()],
        }
    }

    pub fn begin(&mut self, what: &'static str) {
        let seen = self.seen;
        *self = Lent::new();
        self.what = what;
        self.seen = seen;
    }

    #[track_caller]
    pub fn must(&self, holds: bool, fact: &str) {
        assert!(holds, "{}: not so: {}", self.what, fact);
    }

    /// A call's answer, as a case expects it.
    #[track_caller]
    pub fn expect<T: PartialEq + std::fmt::Debug>(&self, given: Result<T, Refusal>, expected: Result<T, Refusal>) {
        assert_eq!(given, expected, "{}", self.what);
    }

    fn before_call(&mut self) {
        self.posted.before_call();
        self.built.before_call();
        self.work.before_call();
        self.out.before_call();
        self.page.before_call();
        self.text.before_call();
    }

    /// After every call: the guards stand, rooms that no call writes are kept, and the number is a number.
    #[track_caller]
    fn after_any<T>(&mut self, answer: &Result<T, Refusal>) {
        let guarded = self.posted.guarded()
            && self.built.guarded()
            && self.work.guarded()
            && self.out.guarded()
            && self.page.guarded()
            && self.text.guarded();
        self.must(guarded, "the guards stand");
        self.must(
            self.sessions[0].record() == BESIDE && self.sessions[2].record() == BESIDE,
            "the sessions beside stand",
        );
        self.must(self.page.kept() && self.text.kept(), "what is lent for reading is kept");
        let number = number_of(answer);
        self.must(is_number(number as usize), "a refusal has this number");
        self.seen[number as usize] = true;
        if let Err(refusal) = answer {
            self.must(refusal.place == 0 || !matches!(number, 1..=5 | 19 | 20), "the number has no place");
        }
    }

    /// After every call but that of a face file: posted tables are kept, and the number is one that such a call may
    /// give.
    #[track_caller]
    fn after_call<T>(&mut self, answer: &Result<T, Refusal>, may_be_given: bool) {
        self.after_any(answer);
        self.must(self.posted.kept(), "posted tables are kept");
        self.must(may_be_given, "such a call gives this number");
    }

    /// What the form refuses of a valid map: 9, several bodies, or 30, one body.
    fn wrong_bodies(&self) -> u32 {
        match self.form {
            Form::OneBody => 9,
            Form::SeveralBodies => 30,
        }
    }

    /// After a call that takes a map, which may give the check's numbers and perhaps one more.
    #[track_caller]
    fn after_posting<T>(&mut self, answer: &Result<T, Refusal>, one_more: u32) {
        let number = number_of(answer);
        self.after_call(answer, number <= 8 || number == self.wrong_bodies() || number == one_more);
        if let Err(refusal) = answer {
            self.must(number != 30 || refusal.place == 0, "30 of a posted map has no place");
        }
    }

    /// After a call that takes a map: the rooms of readings are kept, and the work room is as the number says.
    #[track_caller]
    fn after_walk<T>(&mut self, answer: &Result<T, Refusal>, m: Map, root: usize) {
        self.must(self.built.kept(), "no reading was called");
        let number = number_of(answer);
        if (1..=8).contains(&number) {
            self.must(self.work.kept(), "the work room is kept");
            return;
        }
        self.must(m.darts <= MAX_DARTS && self.work.kept_from(2 * m.darts), "the work room is kept past 2n");
        let (numbers, darts) = self.work.at()[..2 * m.darts].split_at(m.darts);
        if number == self.wrong_bodies() {
            self.must(no_link(numbers) && no_link(darts), "the work room says no link");
            return;
        }
        let inverse = numbers.iter().enumerate().all(|(d, k)| darts[*k as usize] as usize == d);
        self.must(inverse && numbers.get(root) == Some(&0), "the work room numbers the darts from the root");
    }

    #[track_caller]
    pub fn check(&mut self, m: Map, root: usize) -> Result<(), Refusal> {
        self.before_call();
        let answer = match self.form {
            Form::OneBody => kanzhulet::check(m.dim, m.darts, root, self.posted.at(), self.work.at_mut()),
            Form::SeveralBodies => kanzhulet::check_bodies(m.dim, m.darts, root, self.posted.at(), self.work.at_mut()),
        };
        let halves = answer.map(|a| (a.walk_numbers.to_vec(), a.darts.to_vec()));
        self.after_posting(&halves, 0);
        self.after_walk(&halves, m, root);
        self.must(self.out.kept(), "nothing was written");
        let (numbers, darts) = halves?;
        self.must(numbers == self.work.at()[..m.darts], "the first half is the walk numbers");
        self.must(darts == self.work.at()[m.darts..2 * m.darts], "the second half is the darts");
        Ok(())
    }

    /// The n of the map that a face file left in the tables. After 9 it is not told: then the first 2n of the work room
    /// are `NO_LINK`, and no other entry of a room that was lent afresh is.
    pub fn darts_of_faces(&self, answer: &Result<FacesAnswer, Refusal>) -> usize {
        match answer {
            Ok(a) => a.darts,
            Err(_) => self.work.at().iter().take_while(|entry| **entry == NO_LINK).count() / 2,
        }
    }

    #[track_caller]
    pub fn faces(&mut self) -> Result<FacesAnswer, Refusal> {
        self.before_call();
        let answer = kanzhulet::faces(self.text.at(), self.posted.at_mut(), self.work.at_mut());
        self.after_any(&answer);
        let number = number_of(&answer);
        self.must(matches!(number, 0 | 2..=4 | 9 | 26..=29), "a face file gives this number");
        self.must(self.form == Form::OneBody, "a face file is checked as one body");
        self.must(self.out.kept() && self.built.kept(), "a face file has two rooms to write");
        if number != 0 && number != 9 {
            self.must(self.posted.kept() && self.work.kept(), "all but 0 and 9 change nothing");
            return answer;
        }
        let m = Map { dim: 2, darts: self.darts_of_faces(&answer) };
        self.must(m.darts >= 6 && m.darts % 2 == 0, "a corner has two darts, and a face three corners");
        self.must(self.posted.kept_from(m.entries()), "the tables are kept past 3n");
        let links = &self.posted.at()[..m.entries()];
        self.must(links.iter().all(|e| (*e as usize) < m.darts), "every entry is a dart");
        self.after_walk(&answer, m, 0);
        answer
    }

    #[track_caller]
    pub fn write(&mut self, m: Map, root: usize, start: usize) -> Result<WriteAnswer, Refusal> {
        self.before_call();
        let (tables, work, out) = (self.posted.at(), self.work.at_mut(), self.out.at_mut());
        let answer = match self.form {
            Form::OneBody => kanzhulet::write(m.dim, m.darts, root, start, tables, work, out),
            Form::SeveralBodies => kanzhulet::write_bodies(m.dim, m.darts, root, start, tables, work, out),
        };
        self.after_posting(&answer, 10);
        self.after_walk(&answer, m, root);
        match answer {
            Ok(a) => {
                let most = self.out.length().min(a.length - start);
                self.must(a.written == most, "as much is written as the output holds or the stream has");
                self.must(self.out.kept_from(a.written), "the rest of the output is kept");
            }
            Err(_) => self.must(self.out.kept(), "a refusal keeps the output"),
        }
        answer
    }

    #[track_caller]
    pub fn report(&mut self, m: Map) -> Result<ReportAnswer, Refusal> {
        self.before_call();
        let answer = match self.form {
            Form::OneBody => kanzhulet::report(m.dim, m.darts, self.posted.at(), self.work.at_mut()),
            Form::SeveralBodies => kanzhulet::report_bodies(m.dim, m.darts, self.posted.at(), self.work.at_mut()),
        };
        self.after_posting(&answer, 0);
        let number = number_of(&answer);
        self.must(number != 5 && self.out.kept() && self.built.kept(), "the report has no root and one room to write");
        if number == 0 || number == self.wrong_bodies() {
            let marked = no_link(&self.work.at()[..2 * m.darts]) && self.work.kept_from(2 * m.darts);
            self.must(marked, "the work room says no link in its first 2n entries");
        } else {
            self.must(self.work.kept(), "the work room is kept");
        }
        if let Ok(a) = answer {
            self.must(a.cells[m.dim + 1..].iter().all(|c| *c == 0) && a.cells.len() == MAX_DIM + 1, "no cells past N");
        }
        answer
    }

    /// After a reading call that was not answered 19, 20 or by a refusal of before.
    #[track_caller]
    fn after_reading<T>(&mut self, answer: &Result<T, Refusal>, header: Header) {
        let (number, entries) = (number_of(answer), header.entries);
        self.must(is_found(number), "a reading gives this number");
        self.must(self.work.kept() && self.out.kept(), "a reading has one room to write");
        if number == 1 || number == 3 {
            self.must(self.built.kept(), "the tables are kept");
        } else {
            self.must(self.built.kept_from(entries), "the tables are kept past (N+1)n");
        }
        if number >= 11 {
            self.must(no_link(&self.built.at()[..entries]), "the tables say no link");
        }
        match answer {
            Err(Refusal { number: 15, place }) => {
                self.must(header.form == Form::OneBody && *place < entries, "15 is of one body, with steps left");
            }
            Err(Refusal { number: 30, place }) => {
                self.must(header.form == Form::SeveralBodies && *place == entries, "30 is of several, at the end");
            }
            _ => (),
        }
    }

    #[track_caller]
    pub fn read(&mut self) -> Result<ReadAnswer, Refusal> {
        self.before_call();
        let answer = kanzhulet::read(self.page.at(), self.built.at_mut());
        self.after_call(&answer, is_found(number_of(&answer)));
        let header = Header::of(&[0; RECORD], self.page.at());
        self.after_reading(&answer, header);
        let entries = header.entries;
        if let Ok(a) = answer {
            let whole = a.steps == entries && (a.dim + 1) * a.darts == entries;
            self.must(whole, "all steps of the header's map are done");
            self.must(self.built.at()[..entries].iter().all(|e| (*e as usize) < a.darts), "every entry is a dart");
        }
        answer
    }

    pub fn open(&mut self) {
        self.sessions[1] = Session::open();
        self.must(self.record() == [0; RECORD], "a new session's numbers are 0");
        self.must(self.state() == Some(State::Header), "a new session waits for a header");
        self.must(self.form_read() == Some(Form::OneBody) && self.bodies() == 0, "a new session has no body");
    }

    /// The form of the session's stream.
    pub fn form_read(&self) -> Option<Form> {
        self.sessions[1].form()
    }

    /// The bodies that the session has begun.
    pub fn bodies(&self) -> usize {
        self.sessions[1].bodies()
    }

    pub fn record(&self) -> [u32; RECORD] {
        self.sessions[1].record()
    }

    pub fn state(&self) -> Option<State> {
        self.sessions[1].state()
    }

    pub fn take_up(&mut self, record: [u32; RECORD]) {
        self.sessions[1] = Session::from_record(record);
    }

    /// Form and bodies of a record that was not refused: those of a new one before the header, and then the header's
    /// form and at least one body, of as many as there are darts numbered.
    #[track_caller]
    fn after_bodies(&mut self, given: [u32; RECORD], header: Header) {
        let record = self.record();
        if record[0] == 0 {
            self.must(record[15..] == [0, 0], "there is no form and no body before the header");
            return;
        }
        let most = if record[15] == 1 { record[5] } else { 1 };
        self.must(self.form_read() == Some(header.form), "the form is the header's");
        self.must((1..=most).contains(&record[16]) && record[16] >= given[16], "so many bodies have begun");
        self.must(self.bodies() == record[16] as usize, "the bodies are the record's");
    }

    #[track_caller]
    fn after_session(&mut self, answer: Result<ReadAnswer, Refusal>, given: [u32; RECORD], header: Header) {
        let record = self.record();
        let number = number_of(&answer);
        if as_before(number, given) {
            self.must(record == given && self.built.kept(), "the record and the tables are kept");
            self.must(matches!(number, 19 | 20) || number == given[1], "the refusal is the record's");
            return;
        }
        self.after_reading(&answer, header);
        match answer {
            Err(refusal) => {
                self.must(self.state() == Some(State::Refused(refusal)), "the state is that refusal");
                self.must(record[3..] == [0; RECORD - 3], "all else of a refused record is 0");
            }
            Ok(a) => {
                let steps: u32 = record[6..13].iter().sum();
                self.must(record[0] <= 3 && record[1..3] == [0, 0], "no refusal is recorded");
                self.must(a.steps == steps as usize, "steps are the sum of the positions");
                self.must(a.dim == record[3] as usize && a.darts == record[4] as usize, "N and n are the record's");
                self.must(record[13] <= 13 && record[14] < 1 << record[13], "a symbol's first bits wait");
                self.after_bodies(given, header);
            }
        }
    }

    #[track_caller]
    pub fn page(&mut self) -> Result<PageAnswer, Refusal> {
        let given = self.record();
        let header = Header::of(&given, self.page.at());
        self.before_call();
        let answer = self.sessions[1].page(self.page.at(), self.built.at_mut());
        self.after_call(&answer, is_of_session(number_of(&answer)));
        self.after_session(answer.map(|a| a.reading), given, header);
        self.must(number_of(&answer) != 11 || given[0] == 4, "a page does not cut the stream");
        self.must(answer.is_err() || self.record()[0] <= 2, "a page does not close");
        if let Ok(a) = answer {
            self.must(a.fetch == bytes_to_fetch(&self.record()), "as many bytes are to be fetched as could finish it");
        }
        answer
    }

    #[track_caller]
    pub fn close(&mut self) -> Result<ReadAnswer, Refusal> {
        let given = self.record();
        let header = Header::of(&given, &[]);
        self.before_call();
        let answer = self.sessions[1].close(self.built.at_mut());
        self.after_call(&answer, is_of_session(number_of(&answer)));
        self.after_session(answer, given, header);
        let number = number_of(&answer);
        self.must(number == 0 || number == 11 || as_before(number, given), "closing gives this number");
        if number == 0 {
            let kept = self.record()[1..] == given[1..] && self.built.kept();
            self.must(self.state() == Some(State::Closed) && kept, "closing changes the state alone");
        }
        answer
    }
}

/// The bytes to fetch, by the record that a page leaves: of a header those that are not there, of a symbol by how many
/// of its bits wait.
fn bytes_to_fetch(record: &[u32; RECORD]) -> usize {
    match (record[0], record[13]) {
        (0, bits) => 2 - bits as usize / 8,
        (1, 2..=5) => 2,
        (1, _) => 1,
        _ => 0,
    }
}

/// Is the answer one that leaves the record and the tables as they were lent?
fn as_before(number: u32, given: [u32; RECORD]) -> bool {
    number == 19 || number == 20 || given[0] == 4
}

/// 0, or a number that a reading finds; 12 is none of them.
fn is_found(number: u32) -> bool {
    matches!(number, 0 | 1 | 3 | 11 | 13..=18 | 21..=23 | 30)
}

/// Those that a session is answered by.
fn is_of_session(number: u32) -> bool {
    is_found(number) || matches!(number, 12 | 19 | 20)
}

/// What the header says: (N+1)·n and the form.
#[derive(Clone, Copy)]
struct Header {
    entries: usize,
    form: Form,
}

impl Header {
    /// The header from the record, or else from the first two bytes; no entries while they are not both there.
    fn of(given: &[u32; RECORD], bytes: &[u8]) -> Header {
        let of_form = |form| if form == 0 { Form::OneBody } else { Form::SeveralBodies };
        if given[0] != 0 {
            return Header { entries: (given[3] as usize + 1) * given[4] as usize, form: of_form(given[15]) };
        }
        let held = if given[13] == 8 { Some(given[14] as usize) } else { None };
        let mut header = held.into_iter().chain(bytes.iter().map(|byte| *byte as usize));
        match (header.next(), header.next()) {
            (Some(first), Some(second)) => Header {
                entries: (first / 16 % 8 + 1) * (first % 16 * 256 + second + 1),
                form: of_form(first as u32 / 128),
            },
            _ => Header { entries: 0, form: Form::OneBody },
        }
    }
}
