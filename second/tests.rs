//! Tests of the second implementation: results that were worked out by hand, and the laws of the file drawer.

mod bench;
mod files;

use files::{run_file, Parts, LETTERS, NIBBLE_BANK, NUMBERS, WORD_BANK};

/// Two slots, two threads, numbers, word bank: one thread pushes 7, the other pops it.
const WORKED: [u8; 50] = [
    0x05, //
    0x01, 0x00, 0x00, 0x00, 0x04, //
    0x02, 0x00, 0x00, 0x00, 0x05, //
    0x02, 0x00, 0x00, 0x00, 0x01, //
    0x03, 0x00, 0x00, 0x00, 0x02, //
    0x04, 0x00, 0x00, 0x00, 0x0C, //
    0x02, 0x02, 0x01, 0x01, //
    0x50, 0x00, 0x00, 0x00, 0x07, //
    0x44, //
    0x01, 0x01, //
    0x00, 0x00, 0x01, 0x00, 0x00, 0x00, 0x01, 0x01, 0x01, 0x01, 0x00, 0x01,
];

const WORKED_REPORT: &str = "slots 2 threads 2\npush 0 0 7\npop 1 0 7\nleft 1 1 0\n";

/// The answer and the text, after a look at the zeroes behind it.
fn played_in(file: &[u8], area_length: usize) -> (i64, String) {
    let mut area = vec![0xA5; area_length];
    let answer = bench::play(file, &mut area);
    let (text, rest) = area.split_at(answer.max(0) as usize);
    assert!(rest.iter().all(|&byte| byte == 0), "behind the text");
    (answer, String::from_utf8(text.to_vec()).unwrap())
}

fn played(file: &[u8]) -> String {
    played_in(file, 65_536).1
}

/// The worked file with some of its bytes changed.
fn worked_with(changes: &[(usize, u8)]) -> Vec<u8> {
    let mut file = WORKED.to_vec();
    for &(place, byte) in changes {
        file[place] = byte;
    }
    file
}

#[track_caller]
fn assert_refused(file: &[u8], number: u8, place: usize) {
    assert_eq!(played(file), format!("refused file {number} {place}\n"));
}

fn push_number(number: u32) -> Vec<u8> {
    [&[0x50], &number.to_be_bytes()[..]].concat()
}

fn push_letter(sender: u8, tone: u8, serial: u32) -> Vec<u8> {
    [&[0x50, sender, tone], &serial.to_be_bytes()[..]].concat()
}

fn pop() -> Vec<u8> {
    vec![0x44]
}

fn parts(slots: usize, elements: u8, bank: u8, programs: Vec<Vec<u8>>, main: Vec<u8>) -> Parts {
    Parts { slots, elements, bank, programs, lead_in: Vec::new(), main }
}

// The worked file

#[test]
fn worked_file_gives_its_report() {
    assert_eq!(played_in(&WORKED, 65_536), (50, WORKED_REPORT.to_string()));
    assert_eq!(played_in(&WORKED, 50), (50, WORKED_REPORT.to_string()));
}

#[test]
fn short_areas_tell_the_pieces_that_fitted() {
    // The pieces have 18, 11, 10 and 11 bytes.
    let refused = |place: &str| (20 + place.len() as i64 - 1, format!("refused report 14 {place}\n"));
    assert_eq!(played_in(&WORKED, 49), refused("39"));
    assert_eq!(played_in(&WORKED, 40), refused("39"));
    assert_eq!(played_in(&WORKED, 39), refused("39"));
    assert_eq!(played_in(&WORKED, 38), refused("29"));
    assert_eq!(played_in(&WORKED, 29), refused("29"));
    assert_eq!(played_in(&WORKED, 28), refused("18"));
    assert_eq!(played_in(&WORKED, 21), refused("18"));
}

#[test]
fn no_room_for_the_refusal() {
    for length in 0..=20 {
        assert_eq!(played_in(&WORKED, length), (-14, String::new()));
    }
    // The line `refused file 10 0` has 18 bytes with its line feed.
    assert_eq!(played_in(&[], 17), (-14, String::new()));
    assert_eq!(played_in(&[], 18), (18, "refused file 10 0\n".to_string()));
}

// Damaged files

#[test]
fn too_long_and_empty() {
    assert_refused(&[], 10, 0);
    assert_refused(&vec![0; 49_153], 13, 49_152);
    assert_refused(&vec![5; 200_000], 13, 49_152);
    // The greatest length is lawful in itself: here the count is wrong.
    assert_refused(&vec![0; 49_152], 11, 0);
}

#[test]
fn wrong_count() {
    for count in [0, 1, 3, 68, 255] {
        assert_refused(&worked_with(&[(0, count)]), 11, 0);
        assert_refused(&[count], 11, 0);
    }
}

#[test]
fn cut_table() {
    assert_refused(&WORKED[..1], 10, 1);
    assert_refused(&WORKED[..25], 10, 25);
    // A table of 67 entries needs 336 bytes.
    assert_refused(&worked_with(&[(0, 67)]), 10, 50);
    // A wrong kind in a table that is cut is not looked at.
    assert_refused(&worked_with(&[(1, 9)])[..20], 10, 20);
}

#[test]
fn wrong_contents() {
    assert_refused(&worked_with(&[(1, 2)]), 11, 1);
    assert_refused(&worked_with(&[(5, 5)]), 11, 1);
    assert_refused(&worked_with(&[(2, 1)]), 11, 1);
    assert_refused(&worked_with(&[(6, 3)]), 11, 6);
    assert_refused(&worked_with(&[(11, 1)]), 11, 11);
    assert_refused(&worked_with(&[(16, 2)]), 11, 16);
    assert_refused(&worked_with(&[(21, 3)]), 11, 21);
    // With four entries told, the third is the lead-in's.
    assert_refused(&worked_with(&[(0, 4)]), 11, 11);
    // With six told, the sixth entry is read from the bodies, and the fourth is no program.
    assert_refused(&worked_with(&[(0, 6)]), 11, 16);
    // The first wrong entry is told.
    assert_refused(&worked_with(&[(11, 9), (21, 9)]), 11, 11);
}

#[test]
fn bodies_too_long_or_too_short() {
    assert_refused(&WORKED[..26], 10, 26);
    assert_refused(&WORKED[..49], 10, 49);
    assert_refused(&[&WORKED[..], &[0]].concat(), 13, 50);
    assert_refused(&[&WORKED[..], &[0; 7]].concat(), 13, 50);
    assert_refused(&worked_with(&[(25, 13)]), 10, 50);
    assert_refused(&worked_with(&[(25, 11)]), 13, 49);
    assert_refused(&worked_with(&[(22, 1)]), 10, 50);
    // Two lengths that add up to the right one only in 32 bits.
    assert_refused(&worked_with(&[(7, 0x80), (12, 0x80)]), 10, 50);
    // Wrong lengths are told before a wrong shape.
    assert_refused(&worked_with(&[(25, 11), (26, 0)]), 13, 49);
}

#[test]
fn wrong_shape() {
    assert_refused(&worked_with(&[(26, 0)]), 12, 26);
    assert_refused(&worked_with(&[(26, 65)]), 12, 26);
    assert_refused(&worked_with(&[(27, 1)]), 12, 27);
    assert_refused(&worked_with(&[(27, 3)]), 12, 27);
    assert_refused(&worked_with(&[(28, 0)]), 12, 28);
    assert_refused(&worked_with(&[(28, 3)]), 12, 28);
    assert_refused(&worked_with(&[(29, 0)]), 12, 29);
    assert_refused(&worked_with(&[(29, 3)]), 12, 29);
    assert_refused(&worked_with(&[(28, 9), (29, 9), (30, 9)]), 12, 28);
}

#[test]
fn wrong_operations() {
    assert_refused(&worked_with(&[(30, 0x51)]), 12, 30);
    assert_refused(&worked_with(&[(35, 0x43)]), 12, 35);
    // Thread 0 has one byte less, so that its push is incomplete, although the bytes go on.
    assert_refused(&worked_with(&[(10, 4), (15, 2)]), 12, 30);
    // Thread 1 has a push and no element.
    assert_refused(&worked_with(&[(35, 0x50)]), 12, 35);
    // A letter has six bytes: the push of four is incomplete.
    assert_refused(&worked_with(&[(28, 2)]), 12, 30);
    // An operation that is a pop leaves the bytes of a number behind, and the first of them is none.
    assert_refused(&worked_with(&[(30, 0x44)]), 12, 31);
    // Programs are looked at before schedules.
    assert_refused(&worked_with(&[(35, 0), (36, 9)]), 12, 35);
}

#[test]
fn wrong_tone() {
    let with_tone = |tone| {
        let program = [pop(), push_letter(3, 1, 9), push_letter(200, tone, 17)].concat();
        parts(1, LETTERS, WORD_BANK, vec![program], vec![0]).bytes()
    };
    // The table of four entries has 21 bytes with the count, the shape 4, then come a pop and a push of 7 bytes.
    assert_refused(&with_tone(2), 12, 33);
    assert_refused(&with_tone(255), 12, 33);
    assert_eq!(played(&with_tone(1)), "slots 1 threads 1\nleft 0 0 0\n");
}

#[test]
fn strange_threads() {
    assert_refused(&worked_with(&[(36, 2)]), 12, 36);
    assert_refused(&worked_with(&[(38, 2)]), 12, 38);
    assert_refused(&worked_with(&[(49, 255)]), 12, 49);
    assert_refused(&worked_with(&[(37, 64), (38, 2)]), 12, 37);
}

// Runs

#[test]
fn nibble_bank_takes_eight_threads() {
    let file = |threads: usize, bank| parts(1, NUMBERS, bank, vec![Vec::new(); threads], Vec::new()).bytes();
    assert_eq!(played(&file(8, NIBBLE_BANK)), "slots 1 threads 8\nleft 0 0 0\n");
    assert_eq!(played(&file(9, NIBBLE_BANK)), "refused machine 8 0\n");
    assert_eq!(played(&file(64, NIBBLE_BANK)), "refused machine 8 0\n");
    assert_eq!(played(&file(64, WORD_BANK)), "slots 1 threads 64\nleft 0 0 0\n");
}

#[test]
fn full_queue_leaves_a_push_waiting() {
    // Both threads push; in the one slot the second waits for ever. A push has six entries.
    let programs = vec![push_number(4_294_967_295), push_number(10)];
    let main = [vec![0; 6], vec![1; 20]].concat();
    let file = parts(1, NUMBERS, NIBBLE_BANK, programs, main).bytes();
    assert_eq!(played(&file), "slots 1 threads 2\npush 0 0 4294967295\npush 1 1 10\nleft 2 0 1\n");
}

#[test]
fn a_thread_whose_turn_has_come_still_counts_as_waiting() {
    let file = |entries: usize| parts(1, NUMBERS, WORD_BANK, vec![push_number(1)], vec![0; entries]).bytes();
    assert_eq!(played(&file(1)), "slots 1 threads 1\nleft 0 0 0\n");
    assert_eq!(played(&file(2)), "slots 1 threads 1\npush 0 0 1\nleft 1 0 1\n");
    assert_eq!(played(&file(3)), "slots 1 threads 1\npush 0 0 1\nleft 1 0 0\n");
    assert_eq!(played(&file(300)), "slots 1 threads 1\npush 0 0 1\nleft 1 0 0\n");
}

#[test]
fn early_pops_are_entered_behind_their_pushes() {
    // The threads 2 and 1 pop, in this order; then thread 0 pushes twice.
    let programs = vec![[push_letter(200, 1, 17), push_letter(0, 0, 0)].concat(), pop(), pop()];
    let main = [vec![2, 2, 1, 1], vec![0; 8]].concat();
    let file = parts(3, LETTERS, WORD_BANK, programs, main).bytes();
    let entries = "push 0 0 200.17!\npop 2 0 200.17!\npush 0 1 0.0\npop 1 1 0.0\n";
    assert_eq!(played(&file), format!("slots 3 threads 3\n{entries}left 2 2 3\n"));
}

#[test]
fn lead_in_counts_into_the_place() {
    // One thread pushes and pops by turns, which has 13 entries and 2 record entries a time. After 1,024 times the
    // record is full; the begin of the next push is still accepted, its take is not.
    let program = [push_number(5), pop()].concat().repeat(1_025);
    for lead_in in [0, 1, 13_313, 13_314, 13_315] {
        let mut parts = parts(64, NUMBERS, NIBBLE_BANK, vec![program.clone()], vec![0; 13_320 - lead_in]);
        parts.lead_in = vec![0; lead_in];
        assert_eq!(played(&parts.bytes()), "refused machine 6 13313\n");
    }
}

#[test]
fn a_full_record_is_no_refusal_in_itself() {
    let program = [push_number(5), pop()].concat().repeat(1_025);
    let file = parts(1, NUMBERS, NIBBLE_BANK, vec![program], vec![0; 13_313]).bytes();
    let text = played(&file);
    assert_eq!(text.lines().count(), 2_050);
    assert!(text.ends_with("pop 0 1023 5\nleft 1024 1024 0\n"));
}

#[test]
fn an_early_pop_finds_a_full_record_only_by_its_push() {
    // After 1,024 times thread 0 has filled the record. The pop of thread 1 takes its ticket then, for it enters
    // nothing.
    let programs = vec![[push_number(5), pop()].concat().repeat(1_025), pop()];
    let main = [vec![0; 13_312], vec![1, 1, 1]].concat();
    let file = parts(2, NUMBERS, WORD_BANK, programs.clone(), main.clone()).bytes();
    assert!(played(&file).ends_with("left 1024 1025 1\n"));
    let file = parts(2, NUMBERS, WORD_BANK, programs, [main, vec![0, 0]].concat()).bytes();
    assert_eq!(played(&file), "refused machine 6 13316\n");
}

// The file drawer

#[test]
fn a_file_depends_on_seed_and_index_alone() {
    for index in 0..200 {
        assert_eq!(run_file(7, index), run_file(7, index));
    }
    assert!((0..200).any(|index| run_file(7, index) != run_file(8, index)));
}

#[test]
fn every_outcome_is_drawn() {
    let texts: Vec<String> = (0..3_000).map(|index| played(&run_file(1, index))).collect();
    let beginnings = [
        "slots",
        "refused file 10",
        "refused file 11",
        "refused file 12",
        "refused file 13",
        "refused machine 6",
        "refused machine 8",
    ];
    for beginning in beginnings {
        let times = texts.iter().filter(|text| text.starts_with(beginning)).count();
        assert!(times > 20, "{beginning}: {times} times");
    }
}

#[test]
fn files_at_and_over_the_limit_are_drawn() {
    let lengths: Vec<usize> = (0..3_000).map(|index| run_file(1, index).len()).collect();
    assert!(lengths.contains(&49_152));
    assert!(lengths.contains(&49_153));
    assert!(lengths.contains(&0));
}

/// Reports of drawn files keep the law that the documents promise: the entries are a run of a queue, and no two share
/// both kind and ticket.
#[test]
fn drawn_reports_are_queue_histories() {
    for index in 0..2_000 {
        let text = played(&run_file(2, index));
        if text.starts_with("slots") {
            assert_history(&text);
        }
    }
}

fn assert_history(text: &str) {
    let mut queue = std::collections::VecDeque::new();
    let (mut pushes, mut pops) = (0, 0);
    for line in text.lines() {
        let words: Vec<&str> = line.split(' ').collect();
        match words[0] {
            "push" => {
                assert_eq!(words[2], pushes.to_string());
                pushes += 1;
                queue.push_back(words[3].to_string());
            }
            "pop" => {
                assert_eq!(words[2], pops.to_string());
                pops += 1;
                assert_eq!(queue.pop_front().as_deref(), Some(words[3]));
            }
            _ => {}
        }
    }
}
