//! Run files of every sort, lawful and damaged, each drawn from a seed and an index alone; and those of the benchmark.

// Each program that has this module uses only a part of it.
#![allow(dead_code)]

/// A longer file is refused.
const LONGEST_FILE: usize = 49_152;

const PUSH: u8 = 0x50;
const POP: u8 = 0x44;

pub const NUMBERS: u8 = 1;
pub const LETTERS: u8 = 2;
pub const WORD_BANK: u8 = 1;
pub const NIBBLE_BANK: u8 = 2;

/// The file of the given index in the series of the given seed.
pub fn run_file(seed: u64, index: u64) -> Vec<u8> {
    let mut random = Random::of(seed, index);
    match random.below(100) {
        0..=68 => drawn_parts(&mut random).bytes(),
        69..=72 => full_record(&mut random).bytes(),
        73..=74 => at_the_limit(&mut random),
        75 => random_bytes(&mut random),
        _ => damaged(&mut random),
    }
}

// Random numbers

/// The generator splitmix64: a counter in big odd strides, each of its values scrambled.
pub struct Random(u64);

impl Random {
    /// Streams of different seeds or indices have nothing visible in common.
    pub fn of(seed: u64, index: u64) -> Random {
        Random(scrambled(seed ^ scrambled(index)))
    }

    pub fn next(&mut self) -> u64 {
        self.0 = self.0.wrapping_add(0x9E37_79B9_7F4A_7C15);
        scrambled(self.0)
    }

    /// A number from 0 to one less than the bound.
    pub fn below(&mut self, bound: usize) -> usize {
        (self.next() % bound as u64) as usize
    }

    pub fn between(&mut self, least: usize, most: usize) -> usize {
        least + self.below(most - least + 1)
    }

    pub fn percent(&mut self, share: usize) -> bool {
        self.below(100) < share
    }

    fn one_of<T: Copy>(&mut self, choices: &[T]) -> T {
        choices[self.below(choices.len())]
    }

    fn byte(&mut self) -> u8 {
        self.next() as u8
    }
}

fn scrambled(number: u64) -> u64 {
    let number = (number ^ number >> 30).wrapping_mul(0xBF58_476D_1CE4_E5B9);
    let number = (number ^ number >> 27).wrapping_mul(0x94D0_49BB_1331_11EB);
    number ^ number >> 31
}

// The parts of a file

/// A run file before it is put into bytes. Programs are bytes already.
pub struct Parts {
    pub slots: usize,
    pub elements: u8,
    pub bank: u8,
    pub programs: Vec<Vec<u8>>,
    pub lead_in: Vec<u8>,
    pub main: Vec<u8>,
}

impl Parts {
    fn without_schedules(shape: &Shape, programs: Vec<Vec<u8>>) -> Parts {
        let Shape { slots, elements, bank, .. } = *shape;
        Parts { slots, elements, bank, programs, lead_in: Vec::new(), main: Vec::new() }
    }

    /// The file: the count of table entries, the table, the bodies.
    pub fn bytes(&self) -> Vec<u8> {
        let shape = [self.slots as u8, self.programs.len() as u8, self.elements, self.bank];
        let mut bodies: Vec<(u8, &[u8])> = vec![(1, &shape)];
        bodies.extend(self.programs.iter().map(|program| (2, program.as_slice())));
        bodies.push((3, &self.lead_in));
        bodies.push((4, &self.main));
        let mut file = vec![bodies.len() as u8];
        for (kind, body) in &bodies {
            file.push(*kind);
            file.extend_from_slice(&(body.len() as u32).to_be_bytes());
        }
        for (_, body) in &bodies {
            file.extend_from_slice(body);
        }
        file
    }

    /// How long the file is without its schedules.
    fn length_without_schedules(&self) -> usize {
        let table = 1 + 5 * (self.programs.len() + 3);
        table + 4 + self.programs.iter().map(Vec::len).sum::<usize>()
    }

    /// Makes a part of the schedule the lead-in and the rest the main one; either may be empty.
    fn set_schedule(&mut self, mut schedule: Vec<u8>, random: &mut Random) {
        let lead_in = match random.below(10) {
            0..=3 => 0,
            4 => schedule.len(),
            5..=7 => random.below(schedule.len() / 8 + 1),
            _ => random.below(schedule.len() + 1),
        };
        self.main = schedule.split_off(lead_in);
        self.lead_in = schedule;
    }
}

// Shapes, and what the threads do

struct Shape {
    slots: usize,
    threads: usize,
    elements: u8,
    bank: u8,
}

fn drawn_shape(random: &mut Random) -> Shape {
    let bank = random.one_of(&[WORD_BANK, NIBBLE_BANK]);
    let mut threads = drawn_size(random);
    // The nibble bank takes no more than 8 threads; most files should keep to that, and some stand just at it.
    if bank == NIBBLE_BANK && threads > 8 && random.percent(80) {
        threads = random.one_of(&[2, 5, 7, 8, 8, 9]);
    }
    Shape { slots: drawn_size(random), threads, elements: random.one_of(&[NUMBERS, LETTERS]), bank }
}

/// Small numbers of slots and threads meet each other most; the largest ones come too.
fn drawn_size(random: &mut Random) -> usize {
    match random.below(20) {
        0..=11 => random.between(1, 4),
        12..=16 => random.between(1, 16),
        17..=18 => random.between(1, 64),
        _ => random.one_of(&[8, 9, 63, 64]),
    }
}

/// How pushes and pops are dealt out to the programs. All but the last can go on for long without a thread that waits
/// for ever.
#[derive(Clone, Copy)]
enum Habit {
    /// Some threads only push and the others only pop.
    Sides,
    /// Each thread pushes and pops by turns.
    ByTurns,
    /// Each thread pushes several times and then pops as often.
    Blocks,
    Anyhow,
}

fn drawn_habit(random: &mut Random, threads: usize) -> Habit {
    match random.below(20) {
        0..=7 if threads > 1 => Habit::Sides,
        0..=12 => Habit::ByTurns,
        13..=16 => Habit::Blocks,
        _ => Habit::Anyhow,
    }
}

/// Programs of so many operations in all.
fn drawn_programs(random: &mut Random, shape: &Shape, habit: Habit, operations: usize) -> Vec<Vec<u8>> {
    match habit {
        Habit::Sides => sides(random, shape, operations),
        _ => (0..shape.threads).map(|_| drawn_program(random, shape, habit, operations)).collect(),
    }
}

fn sides(random: &mut Random, shape: &Shape, operations: usize) -> Vec<Vec<u8>> {
    let pushers = random.between(1, shape.threads - 1);
    let poppers = shape.threads - pushers;
    // Which of the sides has the lower numbers decides who moves first round the threads.
    let pushers_first = random.percent(50);
    let mut programs = Vec::with_capacity(shape.threads);
    for thread in 0..shape.threads {
        let pushes = if pushers_first { thread < pushers } else { thread >= poppers };
        let share = drawn_share(random, operations / 2, if pushes { pushers } else { poppers });
        programs.push(one_sided(random, shape, pushes, share));
    }
    programs
}

fn one_sided(random: &mut Random, shape: &Shape, pushes: bool, operations: usize) -> Vec<u8> {
    let mut program = Vec::new();
    for _ in 0..operations {
        put_operation(&mut program, random, shape.elements, pushes);
    }
    program
}

fn by_turns(random: &mut Random, shape: &Shape, operations: usize) -> Vec<u8> {
    let mut program = Vec::new();
    for index in 0..operations {
        put_operation(&mut program, random, shape.elements, index % 2 == 0);
    }
    program
}

/// An even share of the operations, or one more: so programs of few operations are empty here and there.
fn drawn_share(random: &mut Random, operations: usize, threads: usize) -> usize {
    operations / threads + random.below(2)
}

fn drawn_program(random: &mut Random, shape: &Shape, habit: Habit, operations: usize) -> Vec<u8> {
    let block = match habit {
        Habit::Blocks => random.between(1, shape.slots + 1),
        _ => 1,
    };
    let pops_first = random.percent(if shape.threads > 1 { 30 } else { 5 });
    let mut program = Vec::new();
    for index in 0..drawn_share(random, operations, shape.threads) {
        let pushes = match habit {
            Habit::Anyhow => random.percent(50),
            _ => (index / block % 2 == 0) != pops_first,
        };
        put_operation(&mut program, random, shape.elements, pushes);
    }
    program
}

fn put_operation(program: &mut Vec<u8>, random: &mut Random, elements: u8, pushes: bool) {
    if !pushes {
        program.push(POP);
        return;
    }
    program.push(PUSH);
    if elements == LETTERS {
        program.push(random.byte());
        program.push(random.below(2) as u8);
    }
    program.extend_from_slice(&drawn_number(random).to_be_bytes());
}

/// Numbers of every length in decimal, the edges more often than chance has them.
fn drawn_number(random: &mut Random) -> u32 {
    match random.below(8) {
        0 => random.one_of(&[0, 9, 10, 99, 100, 65_535, 65_536, 999_999_999, 1_000_000_000, u32::MAX]),
        1..=3 => random.below(100) as u32,
        _ => (random.next() as u32) >> random.below(32),
    }
}

// Schedules

/// Who is named next.
#[derive(Clone, Copy)]
enum Style {
    RoundRobin,
    Random,
    /// One thread has most of the entries.
    Favourite(usize, usize),
    /// Each thread has several entries in a row, up to so many.
    Bursts(usize),
    /// Each thread has the 7 entries that the longest operation needs when it need not wait.
    Whole,
    /// One thread is left out, so that whatever it holds stays held.
    Without(usize),
}

fn drawn_style(random: &mut Random, threads: usize) -> Style {
    match random.below(20) {
        0..=3 => Style::RoundRobin,
        4..=8 => Style::Random,
        9..=11 => Style::Favourite(random.below(threads), random.between(30, 95)),
        12..=14 => Style::Bursts(random.between(2, 15)),
        15..=17 => Style::Whole,
        _ => Style::Without(random.below(threads)),
    }
}

fn drawn_schedule(random: &mut Random, threads: usize, entries: usize) -> Vec<u8> {
    let mut schedule = Vec::with_capacity(entries + 16);
    let stretch = if random.percent(60) { entries } else { random.between(1, entries / 2 + 1) };
    while schedule.len() < entries {
        let style = drawn_style(random, threads);
        let end = entries.min(schedule.len() + stretch);
        put_stretch(&mut schedule, random, threads, style, end);
    }
    schedule
}

/// Draws entries in one style until the schedule has its length at the end.
fn put_stretch(schedule: &mut Vec<u8>, random: &mut Random, threads: usize, style: Style, end: usize) {
    let mut next = random.below(threads);
    while schedule.len() < end {
        let times = match style {
            Style::Bursts(most) => random.between(1, most),
            Style::Whole => 7,
            _ => 1,
        };
        let thread = match style {
            Style::RoundRobin => next,
            Style::Favourite(favourite, share) if random.percent(share) => favourite,
            Style::Without(absent) if next == absent => (next + 1) % threads,
            Style::Without(_) => next,
            _ => random.below(threads),
        };
        next = (next + 1) % threads;
        for _ in 0..times.min(end - schedule.len()) {
            schedule.push(thread as u8);
        }
    }
}

// Lawful files

fn drawn_parts(random: &mut Random) -> Parts {
    let room = match random.below(100) {
        0..=24 => random.below(150),
        25..=64 => random.between(150, 1_500),
        65..=92 => random.between(1_500, 8_000),
        _ => random.between(8_000, 30_000),
    };
    parts_of_length(random, room)
}

/// A lawful file whose programs and schedules have about so many bytes.
fn parts_of_length(random: &mut Random, room: usize) -> Parts {
    let shape = drawn_shape(random);
    let habit = drawn_habit(random, shape.threads);
    // An operation has 3 or 4 bytes on the average, and needs 6 or 7 entries when it need not wait. With fewer
    // entries many operations are not begun; with more there is time for waits, and at last the threads rest.
    let entries_each = random.between(4, 20);
    let operations = room / (entries_each + 3);
    let programs = drawn_programs(random, &shape, habit, operations);
    let mut parts = Parts::without_schedules(&shape, programs);
    parts.set_schedule(drawn_schedule(random, shape.threads, operations * entries_each), random);
    parts
}

/// A run that wants about as many entries as the record has, or more.
fn full_record(random: &mut Random) -> Parts {
    let mut shape = drawn_shape(random);
    shape.threads = shape.threads.min(random.between(1, 16));
    if shape.bank == NIBBLE_BANK {
        shape.threads = shape.threads.min(8);
    }
    let habit = if shape.threads > 1 && random.percent(60) { Habit::Sides } else { Habit::ByTurns };
    let operations = random.between(2_000, 2_700);
    let programs = drawn_programs(random, &shape, habit, operations);
    let entries = operations * random.between(7, 13);
    let mut parts = Parts::without_schedules(&shape, programs);
    let room = LONGEST_FILE - parts.length_without_schedules();
    let schedule = drawn_schedule(random, parts.programs.len(), entries.min(room));
    parts.set_schedule(schedule, random);
    parts
}

/// A file of the greatest length, or of one byte or several less or more.
fn at_the_limit(random: &mut Random) -> Vec<u8> {
    let length = match random.below(8) {
        0..=3 => LONGEST_FILE,
        4 => LONGEST_FILE - 1,
        5 => LONGEST_FILE + 1,
        6 => LONGEST_FILE - random.below(100),
        _ => LONGEST_FILE + random.below(3_000),
    };
    let room = random.between(5_000, 40_000);
    let mut parts = parts_of_length(random, room);
    let entries = length - parts.length_without_schedules();
    let schedule = drawn_schedule(random, parts.programs.len(), entries);
    parts.set_schedule(schedule, random);
    parts.bytes()
}

// Files that are no run files, or hardly

fn random_bytes(random: &mut Random) -> Vec<u8> {
    let length = random.one_of(&[0, 0, 1, 4, 21, 26, 60, 300]);
    let mut file: Vec<u8> = (0..length).map(|_| random.byte()).collect();
    if let Some(count) = file.first_mut() {
        *count = random.one_of(&[*count, 3, 4, 5, 67, 68]);
    }
    file
}

fn damaged(random: &mut Random) -> Vec<u8> {
    let room = random.one_of(&[10, 40, 100, 300, 300, 2_000]);
    let mut file = parts_of_length(random, room).bytes();
    match random.below(12) {
        0..=1 => file.truncate(interesting_place(&file, random)),
        2 => extend(&mut file, random),
        3 => move_length(&mut file, random),
        4 => wrap_lengths(&mut file, random),
        5 => file[0] = random.one_of(&[0, 3, 4, 5, 66, 67, 68, 255]),
        6 => change_shape(&mut file, random),
        7 => change_program_or_schedule(&mut file, random),
        _ => change_several(&mut file, random),
    }
    file
}

fn bodies_begin(file: &[u8]) -> usize {
    1 + 5 * usize::from(file[0])
}

/// The programs stand behind the shape, and the schedules behind them.
fn programs_begin(file: &[u8]) -> usize {
    bodies_begin(file) + 4
}

/// Anywhere, but the table and the shape more often than their share.
fn interesting_place(file: &[u8], random: &mut Random) -> usize {
    if random.percent(60) {
        // The count may have been changed already, and then says nothing true about the table.
        random.below(programs_begin(file).min(file.len()))
    } else {
        random.below(file.len())
    }
}

fn extend(file: &mut Vec<u8>, random: &mut Random) {
    for _ in 0..random.one_of(&[1, 1, 2, 9, 200]) {
        file.push(random.byte());
    }
}

fn change_several(file: &mut [u8], random: &mut Random) {
    for _ in 0..random.one_of(&[1, 1, 1, 2, 3]) {
        let place = interesting_place(file, random);
        change(file, random, place);
    }
}

fn change_shape(file: &mut [u8], random: &mut Random) {
    let place = bodies_begin(file) + random.below(4);
    change(file, random, place);
}

fn change_program_or_schedule(file: &mut [u8], random: &mut Random) {
    let begin = programs_begin(file);
    if begin < file.len() {
        let place = random.between(begin, file.len() - 1);
        change(file, random, place);
    }
}

/// Bytes near the old one, and those that mean something somewhere in a file.
fn change(file: &mut [u8], random: &mut Random, place: usize) {
    let old = file[place];
    file[place] = match random.below(5) {
        0 => old.wrapping_add(1),
        1 => old.wrapping_sub(1),
        2 => random.byte(),
        _ => random.one_of(&[0, 1, 2, 3, 4, 5, 8, 9, 63, 64, 65, POP, PUSH, 128, 255]),
    };
}

/// Moves the border between two bodies, so that the lengths still add up to the file's.
fn move_length(file: &mut [u8], random: &mut Random) {
    let (from, to) = (drawn_entry(file, random), drawn_entry(file, random));
    let moved = random.one_of(&[1, 1, 2, 4, 7]).min(length_of(file, from));
    set_length(file, from, length_of(file, from) - moved);
    set_length(file, to, length_of(file, to) + moved);
}

/// Makes two lengths so great that they add up to the right length in 32 bits, and only there.
fn wrap_lengths(file: &mut [u8], random: &mut Random) {
    let (one, other) = (drawn_entry(file, random), drawn_entry(file, random));
    set_length(file, one, length_of(file, one).wrapping_add(1 << 31));
    if one != other {
        set_length(file, other, length_of(file, other).wrapping_add(1 << 31));
    }
}

/// A table entry other than the shape's.
fn drawn_entry(file: &[u8], random: &mut Random) -> usize {
    random.between(1, usize::from(file[0]) - 1)
}

fn length_of(file: &[u8], entry: usize) -> u32 {
    let place = 2 + 5 * entry;
    u32::from_be_bytes([file[place], file[place + 1], file[place + 2], file[place + 3]])
}

fn set_length(file: &mut [u8], entry: usize, length: u32) {
    let place = 2 + 5 * entry;
    file[place..place + 4].copy_from_slice(&length.to_be_bytes());
}

// The files of the benchmark, each in several variants that differ only in what is drawn

/// One slot, eight threads, and a schedule that makes up most of a file of the greatest length, of which the given
/// number of quarters is kept. All through it the threads get on and wait.
pub fn long_schedule(quarters: usize, variant: u64) -> Parts {
    let mut random = Random::of(1, variant);
    let shape = Shape { slots: 1, threads: 8, elements: NUMBERS, bank: WORD_BANK };
    let programs = (0..8).map(|thread| one_sided(&mut random, &shape, thread >= 4, 200)).collect();
    let mut parts = Parts::without_schedules(&shape, programs);
    let entries = LONGEST_FILE - parts.length_without_schedules();
    put_stretch(&mut parts.main, &mut random, 8, Style::Random, entries);
    parts.main.truncate(entries * quarters / 4);
    parts
}

/// Four threads that push and pop letters by turns, 2,040 times in all.
pub fn nearly_full_record(variant: u64) -> Parts {
    let mut random = Random::of(2, variant);
    let shape = Shape { slots: 64, threads: 4, elements: LETTERS, bank: NIBBLE_BANK };
    let programs = (0..4).map(|_| by_turns(&mut random, &shape, 510)).collect();
    let mut parts = Parts::without_schedules(&shape, programs);
    put_stretch(&mut parts.main, &mut random, 4, Style::Random, 16_000);
    parts
}

/// As many slots and threads as there can be; half of the threads push and half pop, 1,024 times in all.
pub fn many_threads(variant: u64) -> Parts {
    let mut random = Random::of(3, variant);
    let shape = Shape { slots: 64, threads: 64, elements: LETTERS, bank: WORD_BANK };
    let programs = (0..64).map(|thread| one_sided(&mut random, &shape, thread % 2 == 1, 16)).collect();
    let mut parts = Parts::without_schedules(&shape, programs);
    put_stretch(&mut parts.main, &mut random, 64, Style::Random, 16_000);
    parts
}
