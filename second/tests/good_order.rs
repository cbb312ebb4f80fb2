//! Every clause of good order, damaged alone, and what may not be called damage.

mod common;

use common::{Section, UNWRITTEN};
use second::machine::{Buffer, Machine, Operand, Station, StoreBuffer, Tag};
use second::numbers::Number;
use second::refusal::Refusal;
use second::words::Arithmetic;

const ONE: Operand = Operand::Number(Number(1.0));

fn tag(number: u8) -> Operand {
    Operand::Waits(Tag(number))
}

/// Next place 5 of 6. Buffers 1 and 2 wait at places 0 and 2; station 10 holds place 1 and
/// waits for buffer 1, station 8 holds place 2 and waits for buffer 2; stores 1 and 2 at places
/// 3 and 4 wait for stations 10 and 8. F2 and F4 have the stations' tags, F0 has buffer 1's.
fn busy() -> Section {
    let list = "LD F0,0 / ADR F2,F0 / MD F4,1 / STD F2,5 / STD F4,6 / LDR F6,F0";
    let mut section = Section::new(list, &[1.0, 2.0], [1.0; 4]);
    section.steps(&[0; 5]);
    section
}

fn holding(place: usize, operation: Arithmetic, sink: Operand, source: Operand) -> Station {
    Station::Holding { place, operation, sink, source }
}

fn live(place: usize, cell: usize, operand: Operand) -> StoreBuffer {
    StoreBuffer::Live { place, cell, operand }
}

/// Every entry refuses the machine with 6 and leaves it.
fn assert_refused(name: &str, mut section: Section) {
    let given = section.machine;
    for code in [0, 17, 42, 49, 65, 23] {
        assert_eq!(section.step(code), 6, "{name}");
    }
    assert_eq!(section.left(), Err(Refusal::NotInGoodOrder), "{name}");
    assert_eq!(section.lowest(), Err(Refusal::NotInGoodOrder), "{name}");
    for schedule in [&[][..], &[17], &[0x80]] {
        let mut log = [UNWRITTEN; 1];
        let answer = section.run(schedule, &mut log);
        assert_eq!((answer.steps, answer.place, answer.records), (0, 0, 0), "{name}");
        assert_eq!(answer.refusal, Err(Refusal::NotInGoodOrder), "{name}");
        assert_eq!(log, [UNWRITTEN; 1]);
    }
    assert_eq!(section.machine, given, "{name}");
    assert_eq!(section.results, [Number::ZERO; 256]);
}

/// What is changed, and how.
type Change = (&'static str, fn(&mut Machine));

fn assert_each_refused(damages: &[Change]) {
    assert_eq!(busy().left(), Ok(11));
    for (name, damage) in damages {
        let mut section = busy();
        damage(&mut section.machine);
        assert_refused(name, section);
    }
}

#[test]
fn places() {
    assert_each_refused(&[
        ("next place above the length", |machine| machine.next = 7),
        ("next place far above", |machine| machine.next = usize::MAX),
        ("waiting buffer", |machine| machine.buffers[2] = Buffer::Waiting { place: 5, cell: 0 }),
        ("full buffer", |machine| {
            machine.buffers[2] = Buffer::Full { place: 5, number: Number(1.0) }
        }),
        ("holding station", |machine| machine.stations[3] = holding(5, Arithmetic::Add, ONE, ONE)),
        ("done station", |machine| {
            machine.stations[3] = Station::Done { place: usize::MAX, result: Number(1.0) }
        }),
        ("store buffer", |machine| machine.stores[2] = live(5, 9, ONE)),
    ]);
}

#[test]
fn tags_that_name_nothing_live() {
    for number in [0, 3, 6, 7, 9, 11, 13, 16, 255] {
        for register in 0..4 {
            let mut section = busy();
            section.machine.registers[register] = tag(number);
            assert_refused("register", section);
        }
        for (sink, source) in [(tag(number), ONE), (ONE, tag(number))] {
            let mut section = busy();
            section.machine.stations[4] = holding(4, Arithmetic::Add, sink, source);
            assert_refused("station", section);
        }
        let mut section = busy();
        section.machine.stores[2] = live(4, 9, tag(number));
        assert_refused("store buffer", section);
    }
}

#[test]
fn tags_of_later_instructions() {
    assert_each_refused(&[
        ("sink of a later buffer", |machine| {
            machine.stations[2] = holding(1, Arithmetic::Add, tag(2), ONE)
        }),
        ("source of a later buffer", |machine| {
            machine.stations[2] = holding(1, Arithmetic::Add, ONE, tag(2))
        }),
        ("its own station", |machine| {
            machine.stations[2] = holding(1, Arithmetic::Add, tag(10), ONE)
        }),
        ("station of the same place", |machine| {
            machine.stations[2] = holding(2, Arithmetic::Add, ONE, tag(8))
        }),
        ("station of a later place", |machine| {
            machine.stations[0] = holding(1, Arithmetic::Multiply, ONE, tag(11));
            machine.stations[3] = holding(2, Arithmetic::Add, ONE, ONE);
        }),
        ("store of a later buffer", |machine| machine.stores[2] = live(1, 9, tag(2))),
        ("store of a station of the same place", |machine| machine.stores[2] = live(2, 9, tag(8))),
        ("store of a later station", |machine| machine.stores[2] = live(0, 9, tag(10))),
    ]);
}

#[test]
fn kinds_of_stations() {
    assert_each_refused(&[
        ("add at 8", |machine| machine.stations[0] = holding(2, Arithmetic::Add, ONE, tag(2))),
        ("subtract at 9", |machine| {
            machine.stations[1] = holding(2, Arithmetic::Subtract, ONE, ONE)
        }),
        ("multiply at 10", |machine| {
            machine.stations[2] = holding(1, Arithmetic::Multiply, ONE, ONE)
        }),
        ("divide at 12", |machine| machine.stations[4] = holding(1, Arithmetic::Divide, ONE, ONE)),
    ]);
}

#[test]
fn cells() {
    assert_each_refused(&[
        ("operand cell at its area's length", |machine| {
            machine.buffers[0] = Buffer::Waiting { place: 0, cell: 2 }
        }),
        ("result cell 256", |machine| machine.stores[0] = live(3, 256, ONE)),
        ("result cell far above", |machine| machine.stores[0] = live(3, usize::MAX, ONE)),
        ("two stores of one cell", |machine| machine.stores[0] = live(3, 6, ONE)),
        ("first and third of one cell", |machine| machine.stores[2] = live(4, 5, ONE)),
        ("second and third of one cell", |machine| machine.stores[2] = live(4, 6, ONE)),
    ]);

    let mut short_operands = busy();
    short_operands.operands.truncate(1);
    assert_eq!(short_operands.step(0), 6);
    let mut short_results = busy();
    short_results.results.truncate(6);
    assert_eq!(short_results.step(0), 6);

    // Areas above 256 cells do not raise the limit.
    let mut long_areas = busy();
    long_areas.operands.resize(300, Number::ZERO);
    long_areas.results.resize(300, Number::ZERO);
    long_areas.machine.buffers[0] = Buffer::Waiting { place: 0, cell: 256 };
    assert_eq!(long_areas.step(0), 6);
}

#[test]
fn what_is_in_good_order() {
    let accepted: &[Change] = &[
        ("next place at the length", |machine| machine.next = 6),
        ("register with a later tag", |machine| machine.registers[0] = tag(8)),
        ("buffer of the same place", |machine| machine.stores[2] = live(2, 9, tag(2))),
        ("station of an earlier place", |machine| machine.stores[2] = live(2, 9, tag(10))),
        ("full buffer has no cell to be wrong", |machine| {
            machine.buffers[0] = Buffer::Full { place: 0, number: Number(f64::NAN) }
        }),
        ("two givers of one place", |machine| {
            machine.buffers[5] = Buffer::Waiting { place: 0, cell: 0 }
        }),
    ];
    for (name, change) in accepted {
        let mut section = busy();
        change(&mut section.machine);
        assert_eq!(section.step(23), 5, "{name}");
        assert!(section.left().is_ok(), "{name}");
    }
}
