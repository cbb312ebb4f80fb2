//! A machine as words and back.

use second::entries::machine_words::{machine_of, name, place_words, words_of, MACHINE_WORDS};
use second::machine::{Buffer, Machine, Operand, Station, StoreBuffer, Tag};
use second::numbers::Number;
use second::random::calls::Calls;
use second::random::machines::damage;
use second::random::Prng;
use second::words::Arithmetic;

const NOT_A_NUMBER: u64 = 0x7FF8_0000_0000_0000;

fn one_of_each() -> Machine {
    let holding =
        |place, operation, sink, source| Station::Holding { place, operation, sink, source };
    let (number, tag) = (Operand::Number(Number(1.5)), |tag| Operand::Waits(Tag(tag)));
    Machine {
        next: 9,
        registers: [number, tag(12), Operand::Number(Number(-0.0)), tag(255)],
        buffers: [
            Buffer::Free,
            Buffer::Waiting { place: 3, cell: 200 },
            Buffer::Full { place: 4, number: Number(f64::NAN) },
            Buffer::Free,
            Buffer::Free,
            Buffer::Waiting { place: usize::MAX, cell: usize::MAX },
        ],
        stations: [
            holding(5, Arithmetic::Divide, tag(2), number),
            Station::Done { place: 6, result: Number(2.5) },
            Station::Free,
            holding(7, Arithmetic::Subtract, number, tag(9)),
            Station::Free,
        ],
        stores: [
            StoreBuffer::Live { place: 8, cell: 7, operand: tag(1) },
            StoreBuffer::Free,
            StoreBuffer::Live { place: 2, cell: 255, operand: number },
        ],
    }
}

#[test]
fn where_each_part_stands() {
    let words = words_of(&one_of_each());
    let pattern = 1.5f64.to_bits();
    assert_eq!(words[..9], [9, 0, pattern, 1, 12, 0, 1 << 63, 1, 255]);
    assert_eq!(words[9..18], [0, 0, 0, 1, 3, 200, 2, 4, NOT_A_NUMBER]);
    assert_eq!(words[24..27], [1, u64::MAX, u64::MAX]);
    assert_eq!(words[27..34], [1, 5, 3, 1, 2, 0, pattern]);
    assert_eq!(words[34..41], [2, 6, 2.5f64.to_bits(), 0, 0, 0, 0]);
    assert_eq!(words[48..55], [1, 7, 1, 0, pattern, 1, 9]);
    assert_eq!(words[62..67], [1, 8, 7, 1, 1]);
    assert_eq!(words[67..77], [0, 0, 0, 0, 0, 1, 2, 255, 0, pattern]);
}

#[test]
fn names_and_places_follow_the_words() {
    let named: Vec<usize> =
        (0..MACHINE_WORDS).filter(|&word| name(word).ends_with("place")).collect();
    assert_eq!(named, place_words());
    assert_eq!(
        [0, 4, 26, 61, 66, 77].map(name),
        [
            "next place",
            "F2 value",
            "buffer 6 cell or number",
            "station 12 source value",
            "store buffer 1 operand value",
            "beyond the machine",
        ]
    );
}

#[test]
fn a_machine_comes_back() {
    assert_eq!(machine_of(&words_of(&one_of_each())), one_of_each());
}

#[test]
fn any_words_are_a_machine_and_settle() {
    let mut prng = Prng::new(5);
    for _ in 0..5_000 {
        let mut words = words_of(&one_of_each());
        damage(&mut prng, &mut words, &[0, 1, 256]);
        let canonical = words_of(&machine_of(&words));
        assert_eq!(words_of(&machine_of(&canonical)), canonical);
    }
}

#[test]
fn odd_words() {
    let mut words = words_of(&one_of_each());
    (words[3], words[4]) = (77, 256 + 12);
    words[15] = u64::MAX;
    words[17] = 0xFFF0_0000_0000_0001;
    words[29] = 99;
    words[31] = 512 + 2;
    words[10] = 5;
    assert_eq!(machine_of(&words), one_of_each());
    let cut = machine_of(&words[..12]);
    assert_eq!(cut.registers, one_of_each().registers);
    assert_eq!((cut.buffers, cut.stores), ([Buffer::Free; 6], [StoreBuffer::Free; 3]));
    assert_eq!(words_of(&machine_of(&[])), [0; MACHINE_WORDS]);
}

/// Each word is damaged often, and each damage that matters to good order is made.
#[test]
fn damage_hits_every_word() {
    let mut prng = Prng::new(1);
    let mut hits = [0; MACHINE_WORDS];
    for _ in 0..20 {
        let mut calls = Calls::new(&mut prng, 500);
        for _ in 0..500 {
            let mut words = calls.next(&mut prng).machine;
            words.resize(MACHINE_WORDS, 0);
            let before = words.clone();
            damage(&mut prng, &mut words, &[5, 256]);
            for word in 0..MACHINE_WORDS {
                hits[word] += usize::from(words[word] != before[word]);
            }
        }
    }
    assert!(hits.iter().all(|&count| count > 100), "{hits:?}");
}
