//! Where each part of a machine stands in its row of words.

use crate::machine::{Tag, BUFFERS, FIRST_STORE, REGISTERS, STATIONS, STORE_BUFFERS};
use crate::words::register_number;
use std::iter;
use std::ops::Range;

/// The slots of one sort: how they are called, where they begin and what each holds.
pub(super) struct Slots {
    name: &'static str,
    /// The number of a slot, by index.
    number: fn(usize) -> u32,
    start: usize,
    count: usize,
    fields: &'static [&'static str],
}

/// The field that holds a place.
const PLACE: &str = "place";

/// The word of the next place, before all slots.
pub const NEXT_PLACE: usize = 0;

pub(super) const REGISTER_SLOTS: Slots = Slots {
    name: "F",
    number: register_number,
    start: NEXT_PLACE + 1,
    count: REGISTERS,
    fields: &["kind", "value"],
};
pub(super) const BUFFER_SLOTS: Slots = Slots {
    name: "buffer ",
    number: |index| Tag::of_buffer(index).0.into(),
    start: REGISTER_SLOTS.end(),
    count: BUFFERS,
    fields: &["state", PLACE, "cell or number"],
};
pub(super) const STATION_SLOTS: Slots = Slots {
    name: "station ",
    number: |index| Tag::of_station(index).0.into(),
    start: BUFFER_SLOTS.end(),
    count: STATIONS,
    fields: &[
        "state",
        PLACE,
        "operation or result",
        "sink kind",
        "sink value",
        "source kind",
        "source value",
    ],
};
pub(super) const STORE_SLOTS: Slots = Slots {
    name: "store buffer ",
    number: |index| FIRST_STORE + index as u32,
    start: STATION_SLOTS.end(),
    count: STORE_BUFFERS,
    fields: &["state", PLACE, "cell", "operand kind", "operand value"],
};

const ALL_SLOTS: &[Slots] = &[REGISTER_SLOTS, BUFFER_SLOTS, STATION_SLOTS, STORE_SLOTS];

/// Words of a whole machine.
pub const MACHINE_WORDS: usize = STORE_SLOTS.end();

impl Slots {
    /// Words of one slot.
    pub(super) const fn width(&self) -> usize {
        self.fields.len()
    }

    /// The word after the last slot.
    const fn end(&self) -> usize {
        self.start + self.count * self.width()
    }

    /// The words of one slot.
    pub(super) fn words(&self, index: usize) -> Range<usize> {
        let first = self.start + index * self.width();
        first..first + self.width()
    }

    fn field(&self, word: usize) -> &'static str {
        self.fields[(word - self.start) % self.width()]
    }
}

/// The slots that a word is in; none for the next place and beyond the machine.
fn slots_with(word: usize) -> Option<&'static Slots> {
    ALL_SLOTS.iter().find(|slots| (slots.start..slots.end()).contains(&word))
}

/// The name of a word, such as `station 8 sink kind`.
pub fn name(word: usize) -> String {
    let Some(slots) = slots_with(word) else {
        return if word == NEXT_PLACE { "next place".into() } else { "beyond the machine".into() };
    };
    let number = (slots.number)((word - slots.start) / slots.width());
    format!("{}{number} {}", slots.name, slots.field(word))
}

/// The words of every slot of the sort that a word is in; the next place is a slot alone.
pub fn slots_like(word: usize) -> Vec<Range<usize>> {
    let Some(slots) = slots_with(word) else {
        return iter::once(word..word + 1).collect();
    };
    (0..slots.count).map(|index| slots.words(index)).collect()
}

/// The words that hold a place, the next place's first.
pub fn place_words() -> Vec<usize> {
    let places = |slots: &'static Slots| {
        (slots.start..slots.end()).filter(|&word| slots.field(word) == PLACE)
    };
    iter::once(NEXT_PLACE).chain(ALL_SLOTS.iter().flat_map(places)).collect()
}
