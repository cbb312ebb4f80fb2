//! Each operation, by the machine's lowest steps and one at a time.

mod common;

use common::Section;
use second::numbers::Number;
use second::one_at_a_time;

const TINY: f64 = f64::from_bits(1);
const ULP: f64 = f64::EPSILON;

/// F0 from the first operand and F2 from the second, after the instruction has worked on F0.
fn assert_gives(instruction: &str, first: f64, second: f64, expected: f64) {
    let list = format!("LD F0,0 / LD F2,1 / {instruction}");
    let mut section = Section::new(&list, &[first, second], [0.0; 4]);
    let (_, mut lent) = section.split();
    let (registers, _) = one_at_a_time::run(&mut lent, [Number::ZERO; 4]);
    assert_eq!(registers[0], Number(expected), "{instruction} {first} {second}");
    while let Ok(Some(code)) = section.lowest() {
        section.steps(&[code]);
    }
    assert_eq!(Number(section.number(0)), Number(expected), "{instruction} {first} {second}");
}

#[test]
fn each_operation() {
    for (cell, register, expected) in [
        ("LD F0,1", "LDR F0,F2", 4.0),
        ("AD F0,1", "ADR F0,F2", 5.0),
        ("SD F0,1", "SDR F0,F2", -3.0),
        ("MD F0,1", "MDR F0,F2", 4.0),
        ("DD F0,1", "DDR F0,F2", 0.25),
    ] {
        assert_gives(cell, 1.0, 4.0, expected);
        assert_gives(register, 1.0, 4.0, expected);
    }
}

#[test]
fn edges_of_binary64() {
    for (instruction, first, second, expected) in [
        ("AD F0,1", 1.0, ULP / 2.0, 1.0),
        ("AD F0,1", 1.0 + ULP, ULP / 2.0, 1.0 + 2.0 * ULP),
        ("AD F0,1", -0.0, -0.0, -0.0),
        ("SDR F0,F2", 1.5, 1.5, 0.0),
        ("SD F0,1", f64::INFINITY, f64::INFINITY, f64::NAN),
        ("MD F0,1", f64::MAX, 2.0, f64::INFINITY),
        ("MDR F0,F2", -TINY, 0.5, -0.0),
        ("MD F0,1", f64::MIN_POSITIVE, 0.5, f64::MIN_POSITIVE / 2.0),
        ("DD F0,1", -1.0, 0.0, f64::NEG_INFINITY),
        ("DDR F0,F2", 0.0, -0.0, f64::NAN),
        ("DD F0,1", TINY, 2.0, 0.0),
        ("ADR F0,F2", -f64::NAN, 1.0, f64::NAN),
    ] {
        assert_gives(instruction, first, second, expected);
    }
}

#[test]
fn numbers_are_the_same_by_bits_or_both_not_a_number() {
    assert_ne!(Number(0.0), Number(-0.0));
    assert_eq!(Number::from_pattern(0xFFF0_0000_0000_0001), Number(f64::NAN));
    assert_ne!(Number(f64::NAN), Number(f64::INFINITY));
}
