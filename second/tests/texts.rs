//! Files made from text come back, and wrong text is refused with its line.

use second::list_file;
use second::random::{
    bytes, lists, operands as random_operands, schedules as random_schedules, Prng,
};
use second::text::{assembly, operands, schedules, LineError};
use second::words::CellLimits;

fn reason<T: std::fmt::Debug>(answer: Result<T, LineError>) -> String {
    answer.unwrap_err().to_string()
}

#[test]
fn assembly_text() {
    let text = "# the worked example\n ld f0,0 ; first\n\nAD\tF0 , 1\nstd F0,0";
    let file = assembly::assemble(text).unwrap();
    assert_eq!(file, [0x03, 0x01, 0x00, 0x00, 0x03, 0x00, 0x01, 0x0B, 0x00, 0x00]);
    assert_eq!(assembly::listing(&file).unwrap(), "LD F0,0\nAD F0,1\nSTD F0,0\n");
    let file = assembly::assemble("DDR F6,F2").unwrap();
    assert_eq!(assembly::listing(&file).unwrap(), "DDR F6,F2\n");
    assert_eq!(assembly::assemble("").unwrap(), [0x00]);
}

#[test]
fn assembly_errors() {
    let error = |text| reason(assembly::assemble(text));
    assert_eq!(error("LD F0,0\nLX F0,0"), "line 2: unknown operation `LX`");
    assert_eq!(error("\n#\nADR F0"), "line 3: ADR needs two operands, as in `ADR F0,F2`");
    assert_eq!(error("STD"), "line 1: STD needs two operands, as in `STD F0,0`");
    assert_eq!(error("LD F1,0"), "line 1: `F1` is not a register: F0, F2, F4 or F6");
    assert_eq!(error("LD F8,0"), "line 1: `F8` is not a register: F0, F2, F4 or F6");
    assert_eq!(error("ADR F0,2"), "line 1: `2` is not a register: F0, F2, F4 or F6");
    assert_eq!(error("LD F0,256"), "line 1: `256` is not a cell from 0 to 255");
    assert_eq!(error("LD F0,+1"), "line 1: `+1` is not a cell from 0 to 255");
    assert_eq!(error("LD F0,1,2"), "line 1: `1,2` is not a cell from 0 to 255");
    let long = "LDR F0,F0\n".repeat(4_097);
    assert_eq!(reason(assembly::assemble(&long)), "line 4097: more than 4096 instructions");
}

#[test]
fn operand_text() {
    let text = "1.5\n-0 # minus zero\n0x1\n0X7ff0000000000001\ninf\n-1e-320\n";
    let file = operands::to_file(text).unwrap();
    let patterns: Vec<u64> =
        file.chunks(8).map(|pattern| u64::from_be_bytes(pattern.try_into().unwrap())).collect();
    assert_eq!(
        patterns[..5],
        [
            0x3FF8_0000_0000_0000,
            0x8000_0000_0000_0000,
            1,
            0x7FF8_0000_0000_0000,
            0x7FF0_0000_0000_0000,
        ]
    );
    let printed = "1.5\n-0.0\n5e-324\n0x7FF8000000000000\ninf\n-1e-320\n";
    assert_eq!(operands::to_text(&file).unwrap(), printed);
}

#[test]
fn operand_errors() {
    let error = |text: &str| reason(operands::to_file(text));
    assert!(error("1\nx").starts_with("line 2: `x` is neither a decimal number nor a pattern"));
    for pattern in ["0x", "0x+1", "0x12345678901234567", "0xG"] {
        assert!(error(pattern).ends_with("is not 0x and 1 to 16 hexadecimal digits"));
    }
    assert_eq!(error(&"1\n".repeat(257)), "line 257: more than 256 operands");
    assert_eq!(
        operands::to_text(&[0; 9]).unwrap_err().to_string(),
        "refusal 8 at 8: file ends inside a number or before one that is due"
    );
}

#[test]
fn schedule_text() {
    let text = "issue\nARRIVE 2\ncomplete 10\ngrant 2\ngrant 12\nrelease 1\ncode 23\ncode 65535";
    let file = schedules::to_file(text).unwrap();
    assert_eq!(file, [0x00, 0x12, 0x2A, 0x32, 0x3C, 0x41, 0x17, 0xFF, 0xFF, 0x03]);
    let printed = schedules::to_text(&file).unwrap();
    assert_eq!(printed, text.to_lowercase() + "\n");
}

#[test]
fn schedule_errors() {
    for wrong in [
        "isue",
        "issue 1",
        "arrive",
        "arrive 0",
        "arrive 7",
        "complete 7",
        "grant 7",
        "grant 13",
        "release 4",
        "release 17",
        "code",
        "code 65536",
        "code -1",
        "arrive 2 3",
    ] {
        let text = format!("issue\n{wrong}");
        assert!(
            reason(schedules::to_file(&text)).starts_with(&format!("line 2: `{wrong}` is no step"))
        );
    }
    assert_eq!(schedules::to_text(&[0, 0x80]).unwrap_err().place, 1);
}

#[test]
fn random_files_come_back() {
    let mut prng = Prng::new(5);
    for _ in 0..300 {
        let length = lists::length(&mut prng);
        let list = list_file::encode(&lists::good(&mut prng, length, CellLimits::NO_AREAS));
        assert_eq!(assembly::assemble(&assembly::listing(&list).unwrap()), Ok(list));

        let patterns: Vec<u64> = (0..256).map(|_| random_operands::pattern(&mut prng)).collect();
        let without_payloads: Vec<u64> = patterns
            .iter()
            .map(|&pattern| if f64::from_bits(pattern).is_nan() { 0x7FF8 << 48 } else { pattern })
            .collect();
        let text = operands::to_text(&random_operands::file(&patterns)).unwrap();
        assert_eq!(operands::to_file(&text), Ok(random_operands::file(&without_payloads)));

        let mut schedule = random_schedules::file(&random_schedules::any(&mut prng));
        if prng.percent(50) {
            bytes::damage(&mut prng, &mut schedule);
        }
        if let Ok(text) = schedules::to_text(&schedule) {
            assert_eq!(schedules::to_file(&text), Ok(schedule));
        }
    }
}

#[test]
fn every_code_comes_back() {
    let codes: Vec<u16> = (0..=u16::MAX).collect();
    let file = random_schedules::file(&codes);
    assert_eq!(schedules::to_file(&schedules::to_text(&file).unwrap()), Ok(file));
}
