//! The check of demand 3 passes the machine and finds each of the faults that 01 has seen.

use second::compare::any_order::{failure, TakeStep};
use second::machine::{Lent, Machine, Operand, Step, StoreBuffer};
use second::numbers::Number;
use second::random::Prng;
use second::refusal::Refusal;

type Answer = Result<(), Refusal>;

fn found(take: TakeStep) -> Option<String> {
    let mut seeds = Prng::new(1);
    (0..200).find_map(|_| failure(&mut Prng::new(seeds.number()), take))
}

fn assert_found(take: TakeStep, reason: &str) {
    let text = found(take).unwrap_or_else(|| panic!("not found out: {reason}"));
    assert!(text.starts_with("demand 3 fails: ") && text.contains(reason), "{text}");
    assert!(text.contains("\nsmallest case found:\n"), "{text}");
}

#[test]
fn the_machine_passes() {
    assert_eq!(found(Machine::step), None);
}

fn refused_step_moves_on(machine: &mut Machine, lent: &mut Lent, code: u32) -> Answer {
    let answer = machine.step(lent, code);
    if answer.is_err() && machine.next < lent.list.len() {
        machine.next += 1;
    }
    answer
}

fn step_does_nothing(machine: &mut Machine, lent: &mut Lent, code: u32) -> Answer {
    let (mut machine, mut results) = (*machine, lent.results.to_vec());
    let mut copy = Lent { list: lent.list, operands: lent.operands, results: &mut results };
    machine.step(&mut copy, code)
}

/// P3: a grant writes F0 although its tag is now another's.
fn grant_writes_any_register(machine: &mut Machine, lent: &mut Lent, code: u32) -> Answer {
    let before = machine.registers;
    let answer = machine.step(lent, code);
    let given = (0..4).find(|&index| before[index] != machine.registers[index]);
    if let (Ok(()), 49..=60, Some(index)) = (answer, code, given) {
        machine.registers[0] = machine.registers[index];
    }
    answer
}

fn all_stores_hold_zero(machine: &mut Machine, lent: &mut Lent, code: u32) -> Answer {
    let answer = machine.step(lent, code);
    for store in &mut machine.stores {
        if let StoreBuffer::Live { operand: operand @ Operand::Number(_), .. } = store {
            *operand = Operand::Number(Number::ZERO);
        }
    }
    answer
}

fn release_forgets_the_cell(machine: &mut Machine, lent: &mut Lent, code: u32) -> Answer {
    let before = lent.results.to_vec();
    let answer = machine.step(lent, code);
    lent.results.copy_from_slice(&before);
    answer
}

fn completion_is_never_permitted(machine: &mut Machine, lent: &mut Lent, code: u32) -> Answer {
    match Step::of_code(code) {
        Some(Step::Completion(_)) => Err(Refusal::NotPermitted),
        _ => machine.step(lent, code),
    }
}

#[test]
fn faults_are_found() {
    assert_found(refused_step_moves_on, "refused, yet something changed");
    assert_found(step_does_nothing, "steps left");
    assert_found(grant_writes_any_register, "alone");
    assert_found(all_stores_hold_zero, "released 0000000000000000");
    assert_found(release_forgets_the_cell, "result cells");
    assert_found(completion_is_never_permitted, "is refused: 7");
}
