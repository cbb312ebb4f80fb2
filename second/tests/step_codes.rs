//! The table of step codes: what it knows, what texts make of it, and that the generators draw
//! all of it.

use second::entries::{own, Entry};
use second::machine::{Step, STEP_CODES};
use second::random::calls::Calls;
use second::random::{schedules as random_schedules, Prng};
use second::text::schedules;
use std::collections::BTreeSet;

/// 01, "Steps": issue, arrivals, completions, grants of buffers and of stations, releases.
fn known_codes() -> Vec<u32> {
    [0..=0, 17..=22, 40..=44, 49..=54, 56..=60, 65..=67].into_iter().flatten().collect()
}

#[test]
fn known_codes_are_those_of_01() {
    let known = known_codes();
    assert_eq!(Step::known().map(|(code, _)| code).collect::<Vec<_>>(), known);
    assert_eq!(STEP_CODES.iter().flat_map(|range| range.codes()).collect::<Vec<_>>(), known);
    assert_eq!(Step::CODE_LIMIT, 68);
    for code in (0..=66_000).chain([u32::MAX]) {
        assert_eq!(Step::of_code(code).is_some(), known.contains(&code), "code {code}");
    }
    for (code, step) in Step::known() {
        assert_eq!((Step::of_code(code), step.code()), (Some(step), code));
    }
}

#[test]
fn a_step_of_no_slot_has_no_known_code() {
    for step in [Step::Arrival(6), Step::Completion(5), Step::Release(3)] {
        assert_eq!(Step::of_code(step.code()), None);
    }
}

#[test]
fn stray_codes_are_unknown_and_beside_the_known() {
    let strays = random_schedules::stray_codes();
    assert_eq!(strays[..10], [1, 16, 23, 39, 45, 48, 55, 61, 64, 68]);
    assert_eq!(strays[10..], [127, 128, 255, 16_384, 65_535]);
    assert!(strays.iter().all(|&code| Step::of_code(code.into()).is_none()));
}

#[test]
fn every_known_code_comes_back_from_its_text() {
    let mut lines = vec!["issue".to_string()];
    for (name, numbers) in [
        ("arrive", 1..=6),
        ("complete", 8..=12),
        ("grant", 1..=6),
        ("grant", 8..=12),
        ("release", 1..=3),
    ] {
        lines.extend(numbers.map(|number| format!("{name} {number}")));
    }
    assert_eq!(lines.len(), known_codes().len());
    for (code, line) in known_codes().into_iter().zip(lines) {
        let file = vec![code as u8];
        let text = schedules::to_text(&file).unwrap();
        assert_eq!(text, format!("{line}\n"));
        assert_eq!(schedules::to_file(&text), Ok(file));
    }
}

#[test]
fn what_is_no_step_is_told_what_is() {
    for wrong in ["issue 0", "arrive 7", "halt"] {
        let expected = format!(
            "line 1: `{wrong}` is no step: `issue`, `arrive 1` to `6`, `complete 8` to `12`, \
             `grant` with either, `release 1` to `3`, or `code` and a number up to 65535"
        );
        assert_eq!(schedules::to_file(wrong).unwrap_err().to_string(), expected);
    }
}

/// Each known code is taken too, not only drawn and refused. Slots of high numbers are seldom in
/// use (54 is taken once in 70 sessions), so there are as many sessions as the gate compares.
#[test]
fn calls_draw_every_code() {
    let (mut asked, mut taken) = (BTreeSet::new(), BTreeSet::new());
    let mut prng = Prng::new(1);
    for _ in 0..2_000 {
        let mut calls = Calls::new(&mut prng, 150);
        for _ in 0..150 {
            let mut call = calls.next(&mut prng);
            if call.entry == Entry::Step {
                asked.insert(call.code);
                taken.extend((own::answer(&mut call) == 0).then_some(call.code));
            }
        }
    }
    assert_eq!(taken.into_iter().collect::<Vec<_>>(), known_codes());
    let strays = random_schedules::stray_codes();
    assert!(strays.iter().all(|&code| asked.contains(&code.into())), "{asked:?}");
}

#[test]
fn schedules_draw_every_code() {
    let mut prng = Prng::new(1);
    let mut any: BTreeSet<u16> = BTreeSet::new();
    let mut put_in: BTreeSet<u16> = BTreeSet::new();
    for _ in 0..20_000 {
        any.extend(random_schedules::any(&mut prng));
        let mut codes = Vec::new();
        random_schedules::damage(&mut prng, &mut codes);
        put_in.extend(codes);
    }
    for code in known_codes() {
        assert!(any.contains(&(code as u16)) && put_in.contains(&(code as u16)), "code {code}");
    }
    assert!(random_schedules::stray_codes().iter().all(|code| put_in.contains(code)), "{put_in:?}");
}
