//! Every order of permitted steps reaches the one-at-a-time run; each step lowers the count by
//! one, and until drained some step is permitted.

mod common;

use common::Section;
use second::machine::{Lent, Machine, Operand, Record, Step};
use second::numbers::Number;
use second::one_at_a_time;
use second::random::{lists, operands, Prng};
use second::words::{decode, CellLimits, Operation};

fn random_section(prng: &mut Prng) -> Section {
    let count = 1 + prng.below(6);
    let numbers: Vec<f64> = (0..count).map(|_| f64::from_bits(operands::pattern(prng))).collect();
    let start = [0; 4].map(|_| f64::from_bits(operands::pattern(prng)));
    let length = prng.below(40);
    let areas = CellLimits::of_areas(count, 256);
    Section::of_words(lists::good(prng, length, areas), &numbers, start)
}

/// Registers and results after the first `length` instructions, one at a time.
fn one_at_a_time(
    section: &Section,
    start: [Number; 4],
    length: usize,
) -> ([Number; 4], Vec<Number>) {
    let mut results = vec![Number::ZERO; section.results.len()];
    let mut lent =
        Lent { list: &section.list[..length], operands: &section.operands, results: &mut results };
    let (registers, answer) = one_at_a_time::run(&mut lent, start);
    assert_eq!(answer, Ok(()));
    (registers, results)
}

fn start_of(machine: &Machine) -> [Number; 4] {
    machine.registers.map(|register| match register {
        Operand::Number(number) => number,
        Operand::Waits(_) => panic!("a fresh machine waits for nothing"),
    })
}

/// The record is that of its STD, with R1 as it was when its turn came.
fn assert_record_right(section: &Section, start: [Number; 4], record: Record) {
    let instruction = decode(section.list[record.place], CellLimits::NO_AREAS).unwrap();
    assert_eq!((instruction.operation, instruction.operand), (Operation::Std, record.cell));
    let (registers, _) = one_at_a_time(section, start, record.place);
    assert_eq!(record.number, registers[instruction.r1]);
}

/// Steps that are not permitted are refused with 7 and change nothing.
fn assert_others_refused(section: &mut Section, permitted: &[Step]) {
    let given = section.machine;
    for step in Step::all().filter(|step| !permitted.contains(step)) {
        assert_eq!(section.step(step.code()), 7);
        assert_eq!(section.machine, given);
    }
}

/// One step, its record if it is a release.
fn take_random_step(prng: &mut Prng, section: &mut Section) -> Option<Record> {
    let permitted = section.permitted();
    assert_eq!(section.lowest().unwrap(), permitted.first().map(|step| step.code()));
    assert_others_refused(section, &permitted);
    let step = prng.pick(&permitted);
    let record = match step {
        Step::Release(index) => section.machine.release_record(index),
        _ => None,
    };
    let left = section.left().unwrap();
    assert_eq!(section.step(step.code()), 0);
    assert_eq!(section.left(), Ok(left - 1));
    if let Some(record) = record {
        assert_eq!(section.results[record.cell], record.number);
    }
    record
}

#[test]
fn every_order_reaches_the_one_at_a_time_run() {
    let mut prng = Prng::new(3);
    for _ in 0..300 {
        let mut section = random_section(&mut prng);
        let start = start_of(&section.machine);
        let mut records = Vec::new();
        while !section.machine.drained(section.list.len()) {
            records.extend(take_random_step(&mut prng, &mut section));
        }
        assert_eq!((section.left(), section.lowest()), (Ok(0), Ok(None)));
        let (registers, results) = one_at_a_time(&section, start, section.list.len());
        assert_eq!(section.machine.registers, registers.map(Operand::Number));
        assert_eq!(section.results, results);
        for record in records {
            assert_record_right(&section, start, record);
        }
    }
}
