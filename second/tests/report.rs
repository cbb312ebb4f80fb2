//! The report's text, and every way it can stop.

use second::list_file;
use second::random::{sessions, Prng};
use second::report::report;

const LIST: [u8; 10] = [0x03, 0x01, 0x00, 0x00, 0x03, 0x00, 0x01, 0x0B, 0x00, 0x00];
const SCHEDULE: [u8; 10] = [0x00, 0x00, 0x00, 0x12, 0x11, 0x32, 0x31, 0x2A, 0x3A, 0x41];

fn operands(numbers: &[f64]) -> Vec<u8> {
    numbers.iter().flat_map(|number| number.to_be_bytes()).collect()
}

fn text(list: &[u8], operands: &[u8], schedule: &[u8]) -> String {
    report(Some(list), Some(operands), Some(schedule))
}

#[test]
fn worked_example() {
    let expected = "steps 10\nrefusal 0 at 10\nleft 0\nF0 400E000000000000\nF2 0000000000000000\n\
                    F4 0000000000000000\nF6 0000000000000000\nlog 1\n2 0 400E000000000000\n";
    assert_eq!(text(&LIST, &operands(&[1.5, 2.25]), &SCHEDULE), expected);
}

#[test]
fn registers_that_wait_and_a_refused_code() {
    let expected = "steps 2\nrefusal 5 at 2\nleft 8\nF0 tag 10\nF2 0000000000000000\n\
                    F4 0000000000000000\nF6 0000000000000000\nlog 0\n";
    assert_eq!(text(&LIST, &operands(&[1.5, 2.25]), &[0x00, 0x00, 0x17]), expected);
}

#[test]
fn every_not_a_number_is_written_alike() {
    let list = list_file::encode(&[65_536, 720_896]);
    for pattern in [0x7FF0_0000_0000_0001u64, 0xFFF8_0000_0000_0000, 0xFFFF_FFFF_FFFF_FFFF] {
        let printed = text(&list, &pattern.to_be_bytes(), &[0x00, 0x11, 0x31, 0x00, 0x41]);
        assert!(printed.contains("\nF0 7FF8000000000000\n"), "{printed}");
        assert!(printed.ends_with("log 1\n1 0 7FF8000000000000\n"), "{printed}");
    }
}

#[test]
fn missing_files() {
    let bytes = operands(&[1.5, 2.25]);
    let bad = Some(&[0x80u8][..]);
    assert_eq!(report(None, None, None), "stopped list missing\n");
    assert_eq!(report(bad, None, None), "stopped list 8 at 0\n");
    assert_eq!(report(Some(&LIST), None, None), "stopped operands missing\n");
    assert_eq!(report(Some(&LIST), Some(&bytes), None), "stopped schedule missing\n");
    assert_eq!(report(Some(&LIST), Some(&bytes[..9]), None), "stopped operands 8 at 8\n");
}

#[test]
fn file_sizes() {
    let bytes = operands(&[1.5, 2.25]);
    let long = vec![0; 65_536];
    let too_long = vec![0; 65_537];
    // At the limit the list's reader speaks (count 0, then bytes left), and the run does.
    assert_eq!(text(&long, &[], &[]), "stopped list 10 at 1\n");
    assert_eq!(text(&too_long, &[], &[]), "stopped list 11 at 65536\n");
    assert_eq!(text(&LIST, &long, &[]), "stopped operands 4 at 2048\n");
    assert_eq!(text(&LIST, &too_long, &[]), "stopped operands 11 at 65536\n");
    assert!(text(&LIST, &bytes, &long).starts_with("steps 3\nrefusal 7 at 3\n"));
    assert_eq!(text(&LIST, &bytes, &too_long), "stopped schedule 11 at 65536\n");
}

#[test]
fn operand_sizes() {
    let stopped = |length: usize| text(&LIST, &vec![0; length], &[]);
    assert!(stopped(2_048).starts_with("steps 0\n"));
    assert_eq!(stopped(2_049), "stopped operands 4 at 2048\n");
    assert_eq!(stopped(2_056), "stopped operands 4 at 2048\n");
    assert_eq!(stopped(2_047), "stopped operands 8 at 2040\n");
    assert_eq!(stopped(1), "stopped operands 8 at 0\n");
}

#[test]
fn areas_speak_after_all_files() {
    let one = operands(&[1.0]);
    assert_eq!(text(&LIST, &one, &[0x80]), "stopped areas 4 at 1\n");
    assert_eq!(text(&LIST, &[], &[]), "stopped areas 4 at 0\n");
    assert_eq!(report(Some(&LIST), Some(&one), None), "stopped schedule missing\n");
    assert_eq!(text(&LIST, &one, &[0; 65_537]), "stopped schedule 11 at 65536\n");
}

#[test]
fn lists_at_their_limit() {
    let mut words = vec![2 << 16; 4_096];
    let schedule = vec![0; 4_096];
    let printed = text(&list_file::encode(&words), &[], &schedule);
    assert!(printed.starts_with("steps 4096\nrefusal 0 at 4096\nleft 0\n"));
    words.push(2 << 16);
    assert_eq!(text(&list_file::encode(&words), &[], &schedule), "stopped list 1 at 0\n");
}

#[test]
fn a_log_of_2048_records_is_full() {
    let list = list_file::encode(&[720_896; 2_049]);
    let schedule = [0x00, 0x41].repeat(2_049);
    let printed = text(&list, &[], &schedule);
    assert!(printed.starts_with("steps 4097\nrefusal 11 at 4097\nleft 1\n"), "{printed}");
    assert!(printed.contains("\nlog 2048\n"));
    assert!(printed.ends_with("\n2047 0 0000000000000000\n"));
}

/// The random sessions meet every first line that a report can have.
#[test]
fn random_sessions_reach_every_ending() {
    let mut seeds = Prng::new(1);
    let mut seen = std::collections::BTreeSet::new();
    for _ in 0..4_000 {
        let session = sessions::session(&mut Prng::new(seeds.number()));
        let [list, operands, schedule] = session.files.each_ref().map(|file| match file {
            sessions::File::Bytes(bytes) => Some(&bytes[..]),
            sessions::File::Missing | sessions::File::Folder => None,
        });
        let printed = report(list, operands, schedule);
        let telling = printed.lines().find(|line| !line.starts_with("steps")).unwrap();
        seen.insert(telling.split(" at ").next().unwrap().to_owned());
    }
    let expected = [
        "refusal 0",
        "refusal 11",
        "refusal 5",
        "refusal 7",
        "refusal 8",
        "refusal 9",
        "stopped areas 4",
        "stopped list 1",
        "stopped list 10",
        "stopped list 11",
        "stopped list 2",
        "stopped list 3",
        "stopped list 4",
        "stopped list 8",
        "stopped list 9",
        "stopped list missing",
        "stopped operands 11",
        "stopped operands 4",
        "stopped operands 8",
        "stopped operands missing",
        "stopped schedule 11",
        "stopped schedule missing",
    ];
    assert_eq!(seen.iter().map(String::as_str).collect::<Vec<_>>(), expected);
}
