//! P1 to P12 of 01, "Sessions on both sides of each rule".

mod common;

use common::{words, Section, UNWRITTEN};
use second::list_file;
use second::machine::{Buffer, Record, Step};
use second::numbers::Number;
use second::refusal::{Fault, Refusal};
use second::words::{check_list, CellLimits};

const WORKED_LIST: &str = "LD F0,0 / AD F0,1 / STD F0,0";
const WORKED_FILE: [u8; 10] = [0x03, 0x01, 0x00, 0x00, 0x03, 0x00, 0x01, 0x0B, 0x00, 0x00];

#[test]
fn p1_empty_list_is_drained() {
    let mut section = Section::new("", &[], [1.0; 4]);
    assert!(section.machine.drained(0));
    assert_eq!(section.left(), Ok(0));
    assert_eq!(section.lowest(), Ok(None));
    for step in Step::all() {
        assert_eq!(section.step(step.code()), 7);
    }
}

#[test]
fn p2_worked_run() {
    let mut section = Section::new(WORKED_LIST, &[1.5, 2.25], [0.0; 4]);
    assert_eq!(section.list, [65_536, 196_609, 720_896]);
    assert_eq!(list_file::read_words(&WORKED_FILE), Ok(section.list.clone()));
    let mut file = [0xEE; 12];
    assert_eq!(list_file::write(&section.list, &mut file), Ok(10));
    assert_eq!(file[..10], WORKED_FILE);
    assert_eq!(file[10..], [0xEE; 2]);

    let mut log = [UNWRITTEN; 2];
    let schedule = [0x00, 0x00, 0x00, 0x12, 0x11, 0x32, 0x31, 0x2A, 0x3A, 0x41];
    let answer = section.run(&schedule, &mut log);
    assert_eq!((answer.steps, answer.place, answer.records), (10, 10, 1));
    assert_eq!(answer.refusal, Ok(()));
    let record = Record { place: 2, cell: 0, number: Number(3.75) };
    assert_eq!(log, [record, UNWRITTEN]);
    assert!(section.machine.drained(3));
    assert_eq!((section.number(0), section.results[0].0), (3.75, 3.75));
}

#[test]
fn p3_a_register_takes_only_the_number_of_its_own_tag() {
    let mut section = Section::new("LD F0,0 / LD F0,1", &[1.0, 2.0], [0.0; 4]);
    section.steps(&[0, 0, 17, 18, 50, 49]);
    assert_eq!(section.number(0), 2.0);
}

#[test]
fn p4_ldr_copies_a_tag() {
    let mut section = Section::new("LD F0,0 / LDR F2,F0", &[5.0], [0.0; 4]);
    section.steps(&[0, 0, 17, 49]);
    assert_eq!((section.number(0), section.number(2)), (5.0, 5.0));
}

#[test]
fn p5_both_operands_are_read_before_r1_takes_the_tag() {
    let mut section = Section::new("ADR F0,F0", &[], [1.5, 0.0, 0.0, 0.0]);
    section.steps(&[0, 42, 58]);
    assert_eq!(section.number(0), 3.0);
}

#[test]
fn p6_a_second_store_to_a_live_cell_waits() {
    let mut section = Section::new("STD F0,5 / STD F0,5", &[], [1.0; 4]);
    section.steps(&[0]);
    assert_eq!(section.step(0), 7);
    section.steps(&[65, 0]);
}

#[test]
fn p7_a_seventh_load_waits_for_a_buffer() {
    let mut section = Section::of_words(vec![65_536; 7], &[1.0], [0.0; 4]);
    section.steps(&[0; 6]);
    assert_eq!(section.step(0), 7);
    section.steps(&[17, 49, 0]);
    assert_eq!(section.machine.buffers[0], Buffer::Waiting { place: 6, cell: 0 });
}

#[test]
fn p8_a_third_multiplication_waits_for_a_station() {
    let mut section = Section::new("MDR F0,F2 / MDR F2,F4 / MDR F4,F6", &[], [1.0; 4]);
    section.steps(&[0, 0]);
    assert_eq!(section.step(0), 7);
}

#[test]
fn p9_a_store_keeps_its_own_number() {
    let list = "ADR F0,F2 / STD F0,0 / ADR F0,F2";
    let mut section = Section::new(list, &[], [1.0, 2.0, 0.0, 0.0]);
    section.steps(&[0, 0, 42, 58, 0, 42, 58, 65]);
    assert_eq!((section.results[0].0, section.number(0)), (3.0, 5.0));
}

#[test]
fn p10_codes_23_and_55_are_unknown() {
    let mut section = Section::new(WORKED_LIST, &[1.0, 1.0], [0.0; 4]);
    assert_eq!((section.step(23), section.step(55)), (5, 5));
}

#[test]
fn p11_bad_words() {
    let refusal = |word| check_list(&[word], CellLimits::NO_AREAS).map_err(|fault| fault.refusal);
    assert_eq!(refusal(0), Err(Refusal::BadOperation));
    assert_eq!(refusal(786_432), Err(Refusal::BadOperation));
    assert_eq!(refusal(69_632), Err(Refusal::BadRegister));
    assert_eq!(refusal(65_792), Err(Refusal::BadCell));
    assert_eq!(words("STD F6,255").len(), 1);
}

#[test]
fn p12_bad_files() {
    let fault = |refusal, place| Err::<Vec<u32>, Fault>(Fault { refusal, place });
    assert_eq!(list_file::read_words(&[0x81]), fault(Refusal::FileEnds, 0));
    assert_eq!(list_file::read_words(&[0x80, 0x00]), fault(Refusal::BadNumber, 0));
    assert_eq!(list_file::read_words(&[0x00, 0x00]), fault(Refusal::BytesLeft, 1));
    assert_eq!(list_file::read_words(&[0x81, 0x20]), fault(Refusal::ListTooLong, 0));
}
