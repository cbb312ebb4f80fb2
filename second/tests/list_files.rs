//! The list check, and the list file's reader and writer at their edges.

use second::list_file;
use second::random::{lists, Prng};
use second::refusal::{Fault, Refusal};
use second::seven_bit;
use second::words::{check_list, CellLimits, LIST_LIMIT};

const LOAD: u32 = 65_536;
const STORE: u32 = 720_896;

fn fault(refusal: Refusal, place: usize) -> Fault {
    Fault { refusal, place }
}

fn read(bytes: &[u8]) -> Result<Vec<u32>, Fault> {
    list_file::read_words(bytes)
}

#[test]
fn numbers_of_one_to_three_bytes() {
    for number in 0..=u16::MAX {
        let mut bytes = vec![0x55];
        seven_bit::append(&mut bytes, number);
        assert_eq!(bytes.len(), 1 + seven_bit::length(number));
        assert_eq!(seven_bit::read(&bytes, 1), Ok((number, bytes.len())));
        let cut = &bytes[..bytes.len() - 1];
        assert_eq!(seven_bit::read(cut, 1), Err(Refusal::FileEnds));
    }
    let bytes_of = |number| {
        let mut bytes = Vec::new();
        seven_bit::append(&mut bytes, number);
        bytes
    };
    assert_eq!(bytes_of(127), [0x7F]);
    assert_eq!(bytes_of(128), [0x80, 0x01]);
    assert_eq!(bytes_of(16_383), [0xFF, 0x7F]);
    assert_eq!(bytes_of(16_384), [0x80, 0x80, 0x01]);
    assert_eq!(bytes_of(65_535), [0xFF, 0xFF, 0x03]);
}

#[test]
fn bad_numbers() {
    for (bytes, refusal) in [
        (&[][..], Refusal::FileEnds),
        (&[0x80], Refusal::FileEnds),
        (&[0x80, 0x80], Refusal::FileEnds),
        (&[0x80, 0x00], Refusal::BadNumber),
        (&[0x80, 0x80, 0x00], Refusal::BadNumber),
        (&[0x80, 0x80, 0x04], Refusal::BadNumber),
        (&[0xFF, 0xFF, 0x7F], Refusal::BadNumber),
        // The third byte's top bit speaks at once, whether the file ends there or not.
        (&[0x80, 0x80, 0x80], Refusal::BadNumber),
        (&[0x80, 0x80, 0x81, 0x01], Refusal::BadNumber),
    ] {
        assert_eq!(seven_bit::read(bytes, 0), Err(refusal), "{bytes:02X?}");
    }
}

#[test]
fn places_of_refusals() {
    for (bytes, expected) in [
        (&[][..], fault(Refusal::FileEnds, 0)),
        (&[0x01], fault(Refusal::FileEnds, 1)),
        (&[0x01, 0x01], fault(Refusal::FileEnds, 2)),
        (&[0x01, 0x01, 0x00], fault(Refusal::FileEnds, 3)),
        (&[0x01, 0x01, 0x00, 0x80], fault(Refusal::FileEnds, 3)),
        (&[0x01, 0x01, 0x00, 0x80, 0x80], fault(Refusal::FileEnds, 3)),
        (&[0x01, 0x80, 0x80, 0x80], fault(Refusal::BadNumber, 1)),
        (&[0x01, 0x00, 0x01, 0x01], fault(Refusal::BadOperation, 1)),
        (&[0x01, 0x0C], fault(Refusal::BadOperation, 1)),
        (&[0x01, 0xFF, 0xFF, 0x03], fault(Refusal::BadOperation, 1)),
        (&[0x01, 0x01, 0x08], fault(Refusal::BadRegister, 2)),
        (&[0x01, 0x01, 0x80, 0x01], fault(Refusal::BadRegister, 2)),
        (&[0x01, 0x01, 0x00, 0x80, 0x02], fault(Refusal::BadCell, 3)),
        (&[0x01, 0x02, 0x00, 0x03], fault(Refusal::BadRegister, 3)),
        (&[0x01, 0x0B, 0x00, 0x80, 0x80, 0x01], fault(Refusal::BadCell, 3)),
        (&[0x01, 0x01, 0x00, 0x00, 0x80], fault(Refusal::BytesLeft, 4)),
        (&[0x81, 0x20], fault(Refusal::ListTooLong, 0)),
        (&[0xFF, 0xFF, 0x03], fault(Refusal::ListTooLong, 0)),
    ] {
        assert_eq!(read(bytes), Err(expected), "{bytes:02X?}");
    }
    assert_eq!(read(&[0x01, 0x01, 0x06, 0xFF, 0x01]), Ok(vec![LOAD + 6 * 4_096 + 255]));
}

#[test]
fn refused_reads_leave_the_buffer() {
    let mut file = list_file::encode(&[LOAD; 100]);
    *file.last_mut().unwrap() = 0x80;
    let mut words = [9; 100];
    let last_number = file.len() - 1;
    assert_eq!(list_file::read(&file, &mut words), Err(fault(Refusal::FileEnds, last_number)));
    file.push(0x02);
    assert_eq!(list_file::read(&file, &mut words), Err(fault(Refusal::BadCell, last_number)));
    assert_eq!(words, [9; 100]);
}

#[test]
fn reads_into_short_and_long_buffers() {
    let file = list_file::encode(&[LOAD, STORE]);
    let mut words = [9; 3];
    assert_eq!(list_file::read(&file, &mut words[..1]), Err(fault(Refusal::TooSmall, 0)));
    assert_eq!(words, [9; 3]);
    // 11 goes before what is wrong later in the file, 1 before 11.
    assert_eq!(list_file::read(&[0x02], &mut words[..1]), Err(fault(Refusal::TooSmall, 0)));
    assert_eq!(list_file::read(&[0x81, 0x20], &mut []), Err(fault(Refusal::ListTooLong, 0)));
    assert_eq!(list_file::read(&file, &mut words), Ok(2));
    assert_eq!(words, [LOAD, STORE, 9]);
    assert_eq!(list_file::read(&[0x00], &mut []), Ok(0));
}

#[test]
fn lists_of_4096_and_4097_words() {
    let mut list = vec![LOAD; LIST_LIMIT];
    let file = list_file::encode(&list);
    assert_eq!(read(&file), Ok(list.clone()));
    let mut bytes = vec![0; file.len()];
    assert_eq!(list_file::write(&list, &mut bytes), Ok(file.len()));
    assert_eq!(bytes, file);
    list.push(0);
    assert_eq!(check_list(&list, CellLimits::NO_AREAS), Err(fault(Refusal::ListTooLong, 4_096)));
    assert_eq!(read(&list_file::encode(&list)), Err(fault(Refusal::ListTooLong, 0)));
    // 1 goes before 2 and before 11.
    assert_eq!(list_file::write(&list, &mut []), Err(Refusal::ListTooLong));
}

#[test]
fn writes_into_short_and_long_buffers() {
    let list = [LOAD + 128, STORE];
    let mut bytes = [0xEE; 9];
    assert_eq!(list_file::write(&list, &mut bytes[..7]), Err(Refusal::TooSmall));
    assert_eq!(list_file::write(&[LOAD, 0], &mut bytes[..1]), Err(Refusal::BadOperation));
    assert_eq!(bytes, [0xEE; 9]);
    assert_eq!(list_file::write(&list, &mut bytes), Ok(8));
    assert_eq!(bytes, [0x02, 0x01, 0x00, 0x80, 0x01, 0x0B, 0x00, 0x00, 0xEE]);
    assert_eq!(list_file::write(&[], &mut []), Err(Refusal::TooSmall));
}

#[test]
fn the_first_bad_word_speaks() {
    let check = |list: &[u32], limits| check_list(list, limits);
    let none = CellLimits::NO_AREAS;
    assert_eq!(check(&[LOAD, STORE + 255], none), Ok(()));
    assert_eq!(check(&[LOAD, LOAD + 256, 0], none), Err(fault(Refusal::BadCell, 1)));
    // Inside a word 2, then R1's 3, then the operand's.
    assert_eq!(check(&[12 << 16 | 0x1FFF], none), Err(fault(Refusal::BadOperation, 0)));
    assert_eq!(check(&[LOAD | 0x1FFF], none), Err(fault(Refusal::BadRegister, 0)));
    assert_eq!(check(&[2 << 16 | 1], none), Err(fault(Refusal::BadRegister, 0)));
    let areas = CellLimits::of_areas(2, 1);
    assert_eq!(check(&[LOAD + 1, STORE], areas), Ok(()));
    assert_eq!(check(&[LOAD + 2], areas), Err(fault(Refusal::BadCell, 0)));
    assert_eq!(check(&[STORE + 1], areas), Err(fault(Refusal::BadCell, 0)));
    // A register operand has no area; a long area does not raise the cell limit.
    assert_eq!(check(&[2 << 16 | 6], CellLimits::of_areas(0, 0)), Ok(()));
    assert_eq!(
        check(&[LOAD + 256], CellLimits::of_areas(999, 999)),
        Err(fault(Refusal::BadCell, 0))
    );
}

/// Any list that passes comes back from its file, and every damaged list is refused by the
/// reader with the number that the list check gives.
#[test]
fn random_lists_come_back() {
    let mut prng = Prng::new(11);
    for _ in 0..500 {
        let length = lists::length(&mut prng);
        let mut list = lists::good(&mut prng, length, CellLimits::NO_AREAS);
        assert_eq!(read(&list_file::encode(&list)), Ok(list.clone()));
        lists::damage(&mut prng, &mut list);
        let file = list_file::encode(&list);
        let check = check_list(&list, CellLimits::NO_AREAS).map_err(|fault| fault.refusal);
        assert_eq!(read(&file).map(|_| ()).map_err(|fault| fault.refusal), check);
        assert_eq!(list_file::write(&list, &mut vec![0; file.len()]).map(|_| ()), check);
    }
}
