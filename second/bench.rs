//! The queue bench a second time: from a run file's bytes to a report's bytes.
//!
//! It is written from the documents alone, without a look at the proved crates, so that a slip in one of the two
//! shows as a difference between them.

/// A longer file is refused.
pub const LONGEST_FILE: usize = 49_152;

/// How many entries the record has room for.
const RECORD_LENGTH: usize = 2_048;

/// The answer where not even a refusal's line fits in the area.
const NO_ROOM: i64 = -14;

/// Plays the run file and leaves the report, or the line of a refusal, at the start of the area; the rest of the area
/// is zero. Answers the length of the text, or `NO_ROOM`.
pub fn play(file: &[u8], area: &mut [u8]) -> i64 {
    let text = report(file, area.len()).unwrap_or_else(|refusal| refusal.text());
    if text.len() > area.len() {
        area.fill(0);
        return NO_ROOM;
    }
    let (start, rest) = area.split_at_mut(text.len());
    start.copy_from_slice(&text);
    rest.fill(0);
    text.len() as i64
}

fn report(file: &[u8], room: usize) -> Result<Vec<u8>, Refusal> {
    let run_file = read_run_file(file)?;
    let bench = play_schedule(&run_file)?;
    report_text(&bench, room)
}

// Refusals

/// What the reader, the machine or the report's writer turned down, and where.
struct Refusal {
    layer: &'static str,
    number: u8,
    place: usize,
}

impl Refusal {
    fn file(number: u8, place: usize) -> Refusal {
        Refusal { layer: "file", number, place }
    }

    fn cut(place: usize) -> Refusal {
        Refusal::file(10, place)
    }

    fn contents(place: usize) -> Refusal {
        Refusal::file(11, place)
    }

    fn body(place: usize) -> Refusal {
        Refusal::file(12, place)
    }

    fn tail(place: usize) -> Refusal {
        Refusal::file(13, place)
    }

    fn record_full(schedule_entry: usize) -> Refusal {
        Refusal { layer: "machine", number: 6, place: schedule_entry }
    }

    fn short_cycle() -> Refusal {
        Refusal { layer: "machine", number: 8, place: 0 }
    }

    fn short_area(written: usize) -> Refusal {
        Refusal { layer: "report", number: 14, place: written }
    }

    fn text(&self) -> Vec<u8> {
        let mut text = Vec::new();
        let number = Part::Number(usize::from(self.number));
        put_line(&mut text, [Part::Word("refused"), Part::Word(self.layer), number, Part::Number(self.place)]);
        text
    }
}

// Elements

#[derive(Clone, Copy, Debug, PartialEq)]
enum Element {
    Number(u32),
    Letter { sender: u8, urgent: bool, serial: u32 },
}

#[derive(Clone, Copy)]
enum ElementKind {
    Number,
    Letter,
}

impl ElementKind {
    fn of(byte: u8) -> Option<ElementKind> {
        match byte {
            1 => Some(ElementKind::Number),
            2 => Some(ElementKind::Letter),
            _ => None,
        }
    }

    /// How many bytes an element has in a run file.
    fn size(self) -> usize {
        match self {
            ElementKind::Number => 4,
            ElementKind::Letter => 6,
        }
    }

    /// The element that `size` bytes mean, if they are lawful.
    fn read(self, bytes: &[u8]) -> Option<Element> {
        match (self, bytes) {
            (ElementKind::Number, number) => Some(Element::Number(big_endian(number))),
            (ElementKind::Letter, [sender, tone @ 0..=1, serial @ ..]) => {
                Some(Element::Letter { sender: *sender, urgent: *tone == 1, serial: big_endian(serial) })
            }
            _ => None,
        }
    }
}

fn big_endian(bytes: &[u8]) -> u32 {
    bytes.iter().fold(0, |number, &byte| number << 8 | u32::from(byte))
}

// Run files

struct RunFile<'a> {
    slots: usize,
    bank: BankKind,
    programs: Vec<Vec<Operation>>,
    lead_in: &'a [u8],
    main: &'a [u8],
}

#[derive(Clone, Copy)]
enum BankKind {
    Word,
    Nibble,
}

impl BankKind {
    fn of(byte: u8) -> Option<BankKind> {
        match byte {
            1 => Some(BankKind::Word),
            2 => Some(BankKind::Nibble),
            _ => None,
        }
    }

    /// How many turns of a slot the bank tells apart.
    fn cycle(self) -> usize {
        match self {
            BankKind::Word => 1 << 26,
            BankKind::Nibble => 16,
        }
    }
}

#[derive(Clone, Copy)]
enum Operation {
    Push(Element),
    Pop,
}

/// A table entry's bytes, and where in the file they begin.
struct Body<'a> {
    place: usize,
    bytes: &'a [u8],
}

fn read_run_file(file: &[u8]) -> Result<RunFile<'_>, Refusal> {
    let lengths = read_table(file)?;
    let bodies = split_bodies(file, &lengths)?;
    // The table has the shape, a program for each thread and two schedules.
    let threads = bodies.len() - 3;
    let (slots, elements, bank) = read_shape(&bodies[0], threads)?;
    let programs = bodies[1..=threads].iter().map(|body| read_program(body, elements)).collect::<Result<_, _>>()?;
    let lead_in = read_schedule(&bodies[threads + 1], threads)?;
    let main = read_schedule(&bodies[threads + 2], threads)?;
    Ok(RunFile { slots, bank, programs, lead_in, main })
}

/// The lengths of the bodies, as the table tells them.
fn read_table(file: &[u8]) -> Result<Vec<u32>, Refusal> {
    if file.len() > LONGEST_FILE {
        return Err(Refusal::tail(LONGEST_FILE));
    }
    let count = file.first().map(|&byte| usize::from(byte)).ok_or_else(|| Refusal::cut(0))?;
    if !(4..=67).contains(&count) {
        return Err(Refusal::contents(0));
    }
    let table = file.get(1..bodies_begin(count)).ok_or_else(|| Refusal::cut(file.len()))?;
    table.chunks_exact(5).enumerate().map(|(index, entry)| read_table_entry(index, entry, count)).collect()
}

fn read_table_entry(index: usize, entry: &[u8], count: usize) -> Result<u32, Refusal> {
    let length = big_endian(&entry[1..]);
    let lawful_length = index != 0 || length == 4;
    if entry[0] == kind_at(index, count) && lawful_length {
        Ok(length)
    } else {
        Err(Refusal::contents(1 + 5 * index))
    }
}

/// The kind that a table entry must have for its place.
fn kind_at(index: usize, count: usize) -> u8 {
    if index == 0 {
        1
    } else if index < count - 2 {
        2
    } else if index == count - 2 {
        3
    } else {
        4
    }
}

fn bodies_begin(count: usize) -> usize {
    1 + 5 * count
}

fn split_bodies<'a>(file: &'a [u8], lengths: &[u32]) -> Result<Vec<Body<'a>>, Refusal> {
    let begin = bodies_begin(lengths.len());
    // In 64 bits, because the lengths of a wrong table may add up past 32.
    let end = begin as u64 + lengths.iter().map(|&length| u64::from(length)).sum::<u64>();
    if end > file.len() as u64 {
        return Err(Refusal::cut(file.len()));
    }
    if end < file.len() as u64 {
        return Err(Refusal::tail(end as usize));
    }
    let mut place = begin;
    let mut bodies = Vec::with_capacity(lengths.len());
    for &length in lengths {
        let behind = place + length as usize;
        bodies.push(Body { place, bytes: &file[place..behind] });
        place = behind;
    }
    Ok(bodies)
}

fn read_shape(body: &Body, threads: usize) -> Result<(usize, ElementKind, BankKind), Refusal> {
    let slots = usize::from(body.bytes[0]);
    if !(1..=64).contains(&slots) {
        return Err(Refusal::body(body.place));
    }
    if usize::from(body.bytes[1]) != threads {
        return Err(Refusal::body(body.place + 1));
    }
    let elements = ElementKind::of(body.bytes[2]).ok_or_else(|| Refusal::body(body.place + 2))?;
    let bank = BankKind::of(body.bytes[3]).ok_or_else(|| Refusal::body(body.place + 3))?;
    Ok((slots, elements, bank))
}

fn read_program(body: &Body, elements: ElementKind) -> Result<Vec<Operation>, Refusal> {
    let mut program = Vec::new();
    let mut rest = body.bytes;
    while !rest.is_empty() {
        let place = body.place + body.bytes.len() - rest.len();
        let (operation, behind) = read_operation(rest, elements).ok_or_else(|| Refusal::body(place))?;
        program.push(operation);
        rest = behind;
    }
    Ok(program)
}

/// The first operation and the bytes behind it; nothing if it is unknown, incomplete or has an unlawful element.
fn read_operation(bytes: &[u8], elements: ElementKind) -> Option<(Operation, &[u8])> {
    let (&code, rest) = bytes.split_first()?;
    match code {
        0x50 if rest.len() >= elements.size() => {
            let (element, behind) = rest.split_at(elements.size());
            Some((Operation::Push(elements.read(element)?), behind))
        }
        0x44 => Some((Operation::Pop, rest)),
        _ => None,
    }
}

fn read_schedule<'a>(body: &Body<'a>, threads: usize) -> Result<&'a [u8], Refusal> {
    match body.bytes.iter().position(|&thread| usize::from(thread) >= threads) {
        Some(strange) => Err(Refusal::body(body.place + strange)),
        None => Ok(body.bytes),
    }
}

// The machine

#[derive(Clone, Copy)]
enum Kind {
    Push,
    Pop,
}

/// What took effect: an operation of a thread, with its ticket and element.
struct Entry {
    kind: Kind,
    thread: usize,
    ticket: usize,
    element: Element,
}

/// A ticket with the slot that it belongs to and the turn of that slot that its operation waits for.
#[derive(Clone, Copy)]
struct Claim {
    ticket: usize,
    slot: usize,
    turn: usize,
}

/// How far a thread is with its operation.
#[derive(Clone, Copy)]
enum Phase {
    Idle,
    Taking(Kind),
    Waiting(Kind, Claim),
    Storing(Claim),
    Reading(Claim),
    Emptying(Claim),
    Completing(Claim),
    Done,
}

struct Thread<'a> {
    phase: Phase,
    /// The element to push, or the one that was popped.
    hand: Option<Element>,
    /// The operations that are still to begin.
    program: std::slice::Iter<'a, Operation>,
}

impl Thread<'_> {
    /// Begins the next operation; a thread that has none left rests.
    fn begin(&mut self) -> Phase {
        match self.program.next() {
            Some(Operation::Push(element)) => {
                self.hand = Some(*element);
                Phase::Taking(Kind::Push)
            }
            Some(Operation::Pop) => Phase::Taking(Kind::Pop),
            None => Phase::Idle,
        }
    }
}

/// A take found no room for what it has to enter.
struct RecordFull;

struct Bench<'a> {
    /// The turn of each slot, in full. A bank keeps only its remainder by the cycle, but nobody ever waits for a turn
    /// that is twice the threads or more away, so with the cycles that the opening accepts both tell the same turns
    /// apart.
    turns: Vec<usize>,
    cells: Vec<Option<Element>>,
    threads: Vec<Thread<'a>>,
    /// The elements of the pushes that have taken, by ticket.
    pushes: Vec<Element>,
    /// The threads of the pops that have taken, by ticket.
    pops: Vec<usize>,
    record: Vec<Entry>,
}

impl<'a> Bench<'a> {
    fn open(run_file: &'a RunFile) -> Result<Bench<'a>, Refusal> {
        if run_file.bank.cycle() < 2 * run_file.programs.len() {
            return Err(Refusal::short_cycle());
        }
        let idle = |program: &'a Vec<Operation>| Thread { phase: Phase::Idle, hand: None, program: program.iter() };
        Ok(Bench {
            turns: vec![0; run_file.slots],
            cells: vec![None; run_file.slots],
            threads: run_file.programs.iter().map(idle).collect(),
            pushes: Vec::new(),
            pops: Vec::new(),
            record: Vec::new(),
        })
    }

    /// What one schedule entry does: the thread begins, makes one step, or is collected.
    fn move_thread(&mut self, number: usize) -> Result<(), RecordFull> {
        let thread = &mut self.threads[number];
        let next = match thread.phase {
            Phase::Idle => thread.begin(),
            Phase::Taking(Kind::Push) => self.take_push(number)?,
            Phase::Taking(Kind::Pop) => self.take_pop(number)?,
            Phase::Waiting(_, claim) if self.turns[claim.slot] != claim.turn => return Ok(()),
            Phase::Waiting(Kind::Push, claim) => Phase::Storing(claim),
            Phase::Waiting(Kind::Pop, claim) => Phase::Reading(claim),
            Phase::Storing(claim) => {
                debug_assert_eq!(self.cells[claim.slot], None);
                self.cells[claim.slot] = thread.hand;
                Phase::Completing(claim)
            }
            Phase::Reading(claim) => {
                thread.hand = self.cells[claim.slot];
                debug_assert_eq!(thread.hand, Some(self.pushes[claim.ticket]));
                Phase::Emptying(claim)
            }
            Phase::Emptying(claim) => {
                self.cells[claim.slot] = None;
                Phase::Completing(claim)
            }
            Phase::Completing(claim) => {
                self.turns[claim.slot] += 1;
                Phase::Done
            }
            Phase::Done => Phase::Idle,
        };
        self.threads[number].phase = next;
        Ok(())
    }

    /// A push is entered by its take; so is the pop of the same ticket, if that took earlier.
    fn take_push(&mut self, thread: usize) -> Result<Phase, RecordFull> {
        let ticket = self.pushes.len();
        let early_pop = self.pops.get(ticket).copied();
        self.need_room(if early_pop.is_some() { 2 } else { 1 })?;
        let element = self.threads[thread].hand.expect("the begin of a push fills the hand");
        self.pushes.push(element);
        self.record.push(Entry { kind: Kind::Push, thread, ticket, element });
        if let Some(thread) = early_pop {
            self.record.push(Entry { kind: Kind::Pop, thread, ticket, element });
        }
        Ok(Phase::Waiting(Kind::Push, self.claim(ticket, 0)))
    }

    /// A pop is entered by its take only if the push of its ticket has taken before.
    fn take_pop(&mut self, thread: usize) -> Result<Phase, RecordFull> {
        let ticket = self.pops.len();
        if let Some(&element) = self.pushes.get(ticket) {
            self.need_room(1)?;
            self.record.push(Entry { kind: Kind::Pop, thread, ticket, element });
        }
        self.pops.push(thread);
        Ok(Phase::Waiting(Kind::Pop, self.claim(ticket, 1)))
    }

    fn need_room(&self, entries: usize) -> Result<(), RecordFull> {
        if self.record.len() + entries <= RECORD_LENGTH {
            Ok(())
        } else {
            Err(RecordFull)
        }
    }

    /// In each round of a slot the push has the even turn and the pop the odd one behind it.
    fn claim(&self, ticket: usize, behind: usize) -> Claim {
        let slots = self.turns.len();
        Claim { ticket, slot: ticket % slots, turn: 2 * (ticket / slots) + behind }
    }

    /// How many threads are at the wait, those whose turn has come included.
    fn waiting(&self) -> usize {
        self.threads.iter().filter(|thread| matches!(thread.phase, Phase::Waiting(..))).count()
    }
}

fn play_schedule<'a>(run_file: &'a RunFile) -> Result<Bench<'a>, Refusal> {
    let mut bench = Bench::open(run_file)?;
    for (index, &thread) in run_file.lead_in.iter().chain(run_file.main).enumerate() {
        bench.move_thread(usize::from(thread)).map_err(|RecordFull| Refusal::record_full(index))?;
    }
    Ok(bench)
}

// The report

/// One of the four parts of a line.
enum Part {
    Word(&'static str),
    Number(usize),
    Element(Element),
}

fn report_text(bench: &Bench, room: usize) -> Result<Vec<u8>, Refusal> {
    let mut report = Report { text: Vec::new(), room };
    let (slots, threads) = (bench.turns.len(), bench.threads.len());
    report.piece([Part::Word("slots"), Part::Number(slots), Part::Word("threads"), Part::Number(threads)])?;
    for entry in &bench.record {
        let word = match entry.kind {
            Kind::Push => "push",
            Kind::Pop => "pop",
        };
        let element = Part::Element(entry.element);
        report.piece([Part::Word(word), Part::Number(entry.thread), Part::Number(entry.ticket), element])?;
    }
    let (pushes, pops) = (Part::Number(bench.pushes.len()), Part::Number(bench.pops.len()));
    report.piece([Part::Word("left"), pushes, pops, Part::Number(bench.waiting())])?;
    Ok(report.text)
}

struct Report {
    text: Vec<u8>,
    room: usize,
}

impl Report {
    /// A piece goes in whole; the refusal tells how much the pieces before it have written.
    fn piece(&mut self, parts: [Part; 4]) -> Result<(), Refusal> {
        let written = self.text.len();
        put_line(&mut self.text, parts);
        if self.text.len() <= self.room {
            Ok(())
        } else {
            Err(Refusal::short_area(written))
        }
    }
}

fn put_line(text: &mut Vec<u8>, parts: [Part; 4]) {
    for (index, part) in parts.iter().enumerate() {
        if index > 0 {
            text.push(b' ');
        }
        match part {
            Part::Word(word) => text.extend_from_slice(word.as_bytes()),
            Part::Number(number) => put_decimal(text, *number),
            Part::Element(element) => put_element(text, *element),
        }
    }
    text.push(b'\n');
}

fn put_element(text: &mut Vec<u8>, element: Element) {
    match element {
        Element::Number(number) => put_decimal(text, number as usize),
        Element::Letter { sender, urgent, serial } => {
            put_decimal(text, usize::from(sender));
            text.push(b'.');
            put_decimal(text, serial as usize);
            if urgent {
                text.push(b'!');
            }
        }
    }
}

fn put_decimal(text: &mut Vec<u8>, number: usize) {
    // The digits come from the last to the first; no number of 64 bits has more than 20.
    let mut digits = [0; 20];
    let mut first = digits.len();
    let mut rest = number;
    loop {
        first -= 1;
        digits[first] = b'0' + (rest % 10) as u8;
        rest /= 10;
        if rest == 0 {
            break;
        }
    }
    text.extend_from_slice(&digits[first..]);
}
