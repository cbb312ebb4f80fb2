//! Which refusal speaks first, for one step, for a run and for the entries that need a list.

mod common;

use common::{Section, UNWRITTEN};
use second::machine::{Lent, Machine, Operand, Step};
use second::numbers::Number;
use second::one_at_a_time;
use second::refusal::Refusal;

const LOAD: u32 = 65_536;
const STORE: u32 = 720_896;
const STRAY: u32 = 23;

#[test]
fn one_step_refuses_with_1_then_6_then_5() {
    let mut section = Section::of_words(vec![LOAD; 4_096], &[1.0], [0.0; 4]);
    section.list.push(LOAD);
    section.machine.next = 5_000;
    assert_eq!(section.step(STRAY), 1);
    section.list.pop();
    assert_eq!(section.step(STRAY), 6);
    section.machine.next = 4_096;
    assert_eq!(section.step(STRAY), 5);
    assert_eq!(section.step(0), 7);
    section.machine.next = 4_095;
    assert_eq!(section.step(0), 0);
}

#[test]
fn an_issue_refuses_its_word_before_its_room() {
    let mut section = Section::of_words(vec![LOAD; 7], &[1.0], [0.0; 4]);
    section.steps(&[0; 6]);
    let given = section.machine;
    for (word, refusal) in [
        (0, 2),
        (12 << 16 | 0x1FFF, 2),
        (LOAD | 0x1FFF, 3),
        (2 << 16 | 1, 3),
        (LOAD + 1, 4),
        (STORE + 256, 4),
        (LOAD, 7),
    ] {
        section.list[6] = word;
        assert_eq!(section.step(0), refusal);
        assert_eq!(section.machine, given);
    }
    section.results.truncate(9);
    section.list[6] = STORE + 9;
    assert_eq!(section.step(0), 4);
}

/// A step looks at its own word only; the entries that check the list look at all.
#[test]
fn a_bad_word_elsewhere() {
    let mut section = Section::of_words(vec![LOAD, LOAD, 0], &[1.0], [0.0; 4]);
    section.steps(&[0, 17]);
    assert_eq!(section.left(), Err(Refusal::BadOperation));
    assert_eq!(section.lowest(), Err(Refusal::BadOperation));
    let answer = section.run(&[0], &mut []);
    assert_eq!((answer.steps, answer.place, answer.refusal), (0, 0, Err(Refusal::BadOperation)));
    // The list goes before good order.
    section.machine.next = 9;
    assert_eq!(section.left(), Err(Refusal::BadOperation));
}

#[test]
fn all_codes_are_known_or_refused_with_5() {
    let mut section = Section::new("", &[], [0.0; 4]);
    let ranges = [0..=0, 17..=22, 40..=44, 49..=54, 56..=60, 65..=67];
    let known: Vec<u32> = ranges.into_iter().flatten().collect();
    assert_eq!(Step::all().map(Step::code).collect::<Vec<_>>(), known);
    for code in (0..=66_000).chain([u32::MAX]) {
        let expected = if known.contains(&code) { 7 } else { 5 };
        assert_eq!(section.step(code), expected, "code {code}");
    }
}

#[test]
fn steps_that_are_not_permitted() {
    let mut section = Section::new("AD F0,0 / STD F0,0 / ADR F2,F2", &[1.0], [1.0; 4]);
    section.steps(&[0, 0]);
    for code in [18, 42, 43, 49, 58, 65, 66] {
        assert_eq!(section.step(code), 7, "code {code}");
    }
    section.steps(&[17]);
    assert_eq!(section.step(17), 7);
    section.steps(&[49, 42]);
    assert_eq!(section.step(42), 7);
    section.steps(&[58, 65]);
    assert_eq!(section.step(65), 7);
}

#[test]
fn three_stores_to_other_cells_are_taken() {
    let mut section = Section::new("STD F0,0/STD F0,127/STD F0,255/STD F0,1", &[], [1.0; 4]);
    section.steps(&[0, 0, 0]);
    assert_eq!(section.step(0), 7);
    section.steps(&[66, 0]);
}

#[test]
fn a_run_keeps_the_steps_before_its_refusal() {
    let schedules: [(&[u8], usize, usize, Refusal); 6] = [
        (&[0, 17, 0x80], 2, 2, Refusal::FileEnds),
        (&[0, 17, 0x80, 0x00], 2, 2, Refusal::BadNumber),
        (&[0, 17, 23, 49], 2, 2, Refusal::UnknownStep),
        (&[0, 17, 0x80, 0x01], 2, 2, Refusal::UnknownStep),
        (&[0, 17, 17, 49], 2, 2, Refusal::NotPermitted),
        (&[0, 17, 49, 0], 3, 3, Refusal::NotPermitted),
    ];
    for (schedule, steps, place, refusal) in schedules {
        let mut section = Section::new("LD F0,0", &[1.0], [0.0; 4]);
        let answer = section.run(schedule, &mut []);
        assert_eq!((answer.steps, answer.place, answer.refusal), (steps, place, Err(refusal)));
        assert_eq!(section.left(), Ok(3 - steps));
    }
}

#[test]
fn a_full_log_stops_only_a_permitted_release() {
    let mut section = Section::new("STD F0,0 / STD F2,1 / LD F0,0 / STD F0,2", &[1.0], [1.0; 4]);
    let mut log = [UNWRITTEN; 1];
    let answer = section.run(&[0, 0, 0, 0, 65, 67], &mut log);
    assert_eq!((answer.steps, answer.records), (5, 1));
    assert_eq!(answer.refusal, Err(Refusal::NotPermitted));
    let given = section.machine;
    let answer = section.run(&[66], &mut []);
    assert_eq!((answer.steps, answer.place, answer.records), (0, 0, 0));
    assert_eq!(answer.refusal, Err(Refusal::TooSmall));
    assert_eq!(section.machine, given);
    assert_eq!(section.results[1], Number::ZERO);
}

#[test]
fn fresh_and_one_at_a_time_need_a_good_list() {
    let start = [1.0, 2.0, 3.0, 4.0].map(Number);
    let store_then = |word| vec![STORE, word];
    for (list, refusal) in [
        (vec![STORE; 4_097], Refusal::ListTooLong),
        (store_then(0), Refusal::BadOperation),
        (store_then(LOAD | 0x1000), Refusal::BadRegister),
        (store_then(LOAD + 1), Refusal::BadCell),
        (store_then(STORE + 2), Refusal::BadCell),
    ] {
        let mut results = [Number(9.0); 2];
        let mut lent = Lent { list: &list, operands: &[Number(1.0)], results: &mut results };
        let (machine, answer) = Machine::fresh(&lent, start);
        assert_eq!(answer, Err(refusal));
        assert_eq!(machine.registers, [Operand::Number(Number::ZERO); 4]);
        assert_eq!((machine.next, machine.drained(0)), (0, true));
        assert_eq!(one_at_a_time::run(&mut lent, start), (start, Err(refusal)));
        assert_eq!(results, [Number(9.0); 2]);
    }
}
