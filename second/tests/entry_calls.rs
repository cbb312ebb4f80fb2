//! Random calls of the entries: what they reach, and that a library with a fault is found out.

use second::compare::entries::difference;
use second::entries::machine_words::{machine_of, MACHINE_WORDS};
use second::entries::{own, Answering, Call, Entry};
use second::machine::Step;
use second::numbers::Number;
use second::random::calls::Calls;
use second::random::Prng;
use std::collections::BTreeSet;

/// Every answer that an entry may give: 01's, and 11 for a row too short.
fn possible(entry: Entry) -> &'static [u32] {
    match entry {
        Entry::ReadList => &[0, 1, 2, 3, 4, 8, 9, 10, 11],
        Entry::WriteList => &[0, 1, 2, 3, 4, 11],
        Entry::Fresh | Entry::OneAtATime => &[0, 1, 2, 3, 4, 11],
        Entry::Step => &[0, 1, 2, 3, 4, 5, 6, 7, 11],
        Entry::GoodOrder | Entry::Drained => &[0, 1],
        Entry::StepsLeft | Entry::LowestStep => &[0, 1, 2, 3, 4, 6, 11],
        Entry::Run => &[0, 1, 2, 3, 4, 5, 6, 7, 8, 9, 11],
    }
}

#[test]
fn every_entry_gives_every_answer() {
    let mut seen = Entry::ALL.map(|_| BTreeSet::new());
    let mut prng = Prng::new(1);
    for _ in 0..300 {
        let mut calls = Calls::new(&mut prng, 150);
        for _ in 0..150 {
            let mut call = calls.next(&mut prng);
            seen[call.entry as usize].insert(own::answer(&mut call));
        }
    }
    for (entry, seen) in Entry::ALL.into_iter().zip(seen) {
        assert_eq!(seen.into_iter().collect::<Vec<_>>(), possible(entry), "{}", entry.name());
    }
}

/// What is said of the first session of 200 with a difference.
fn found(library: Answering) -> Option<String> {
    let mut seeds = Prng::new(1);
    (0..200).find_map(|_| difference(&mut Prng::new(seeds.number()), library))
}

#[test]
fn its_own_answers_do_not_differ() {
    assert_eq!(found(own::answer), None);
}

fn highest_for_lowest(call: &mut Call) -> u32 {
    let returned = own::answer(call);
    let machine = machine_of(&call.machine);
    let lent = call.lent();
    let permitted = |&step: &Step| machine.permits(lent.list, lent.limits(), step);
    let highest = Step::all().filter(permitted).last().map(Step::code);
    if let (Entry::LowestStep, 0, Some(code), [1, answer, ..]) =
        (call.entry, returned, highest, &mut call.answer[..])
    {
        *answer = u64::from(code);
    }
    returned
}

fn refused_release_writes(call: &mut Call) -> u32 {
    let returned = own::answer(call);
    if let (Entry::Step, 7, 65, Some(cell)) =
        (call.entry, returned, call.code, call.results.first_mut())
    {
        *cell = Number(0.5);
    }
    returned
}

fn writer_one_byte_too_far(call: &mut Call) -> u32 {
    let returned = own::answer(call);
    if let (Entry::WriteList, 0, &[length, ..]) = (call.entry, returned, &call.answer[..]) {
        call.file.iter_mut().skip(length as usize).take(1).for_each(|byte| *byte ^= 1);
    }
    returned
}

/// Good order without the rule that two live store buffers have different cells.
fn equal_cells_pass(call: &mut Call) -> u32 {
    let same_cells = call.machine.len() >= 77 && call.machine[64] == call.machine[69];
    let both_live = same_cells && call.machine[62] != 0 && call.machine[67] != 0;
    if call.entry == Entry::GoodOrder && both_live {
        let mut other = call.clone();
        other.machine[67] = 0;
        return own::answer(&mut other);
    }
    own::answer(call)
}

/// A machine's row too short is filled up, and what there is no room for is lost.
fn loses_what_has_no_room(call: &mut Call) -> u32 {
    let length = call.machine.len();
    if call.entry != Entry::Step || MACHINE_WORDS <= length {
        return own::answer(call);
    }
    call.machine.resize(MACHINE_WORDS, 0);
    let returned = own::answer(call);
    call.machine.truncate(length);
    returned
}

fn not_a_number_is_zero(call: &mut Call) -> u32 {
    let returned = own::answer(call);
    for pattern in call.log.iter_mut().filter(|word| f64::from_bits(**word).is_nan()) {
        *pattern = 0;
    }
    returned
}

#[test]
fn faults_are_found() {
    let faults: [(Answering, Entry); 6] = [
        (highest_for_lowest, Entry::LowestStep),
        (refused_release_writes, Entry::Step),
        (writer_one_byte_too_far, Entry::WriteList),
        (equal_cells_pass, Entry::GoodOrder),
        (loses_what_has_no_room, Entry::Step),
        (not_a_number_is_zero, Entry::Run),
    ];
    for (library, entry) in faults {
        let text = found(library).unwrap_or_else(|| panic!("{} is not found out", entry.name()));
        assert!(text.starts_with(entry.name()), "{text}");
        assert!(text.contains("second answers") && text.contains("the library answers"), "{text}");
    }
}

#[test]
fn the_case_is_small() {
    let text = found(refused_release_writes).unwrap();
    assert!(text.contains("  code 65\n") && text.contains("  results, 1:"), "{text}");
    assert!(!text.contains("  list, ") && !text.contains("    word "), "{text}");
}
