//! What is measured: lists with their files, operands and drained schedules.

use crate::entries::machine_words::{words_of, MACHINE_WORDS};
use crate::list_file;
use crate::machine::{Giver, Lent, Machine, Step, Tag, REGISTERS};
use crate::numbers::Number;
use crate::random::schedules::{self, Choice};
use crate::random::Prng;
use crate::words::{register_number, Fields, Operation, CELL_LIMIT, OPERATIONS};
use std::rc::Rc;

/// Rounds take these in turn, so that a branch predictor cannot learn one schedule by heart.
pub const GROUPS: usize = 8;

/// Machines of a group on which good order is tested.
const STANDS: usize = 128;

pub struct Work {
    pub list: Vec<u32>,
    pub file: Vec<u8>,
    pub operands: Vec<Number>,
    pub starts: [Number; REGISTERS],
    pub machine: Machine,
    pub codes: Vec<u32>,
    pub schedule: Vec<u8>,
    /// Machines on the way, spread evenly.
    pub stands: Vec<(Machine, [u64; MACHINE_WORDS])>,
}

/// Groups of works; the works of a group together have a full list's length.
#[derive(Clone)]
pub struct Works(Rc<Vec<Vec<Work>>>);

impl Works {
    /// Random permitted steps of random lists.
    pub fn random(length: usize, lists: usize) -> Works {
        let mut prng = Prng::new(91);
        Works::of(lists, || {
            let list = (0..length).map(|_| random_word(&mut prng)).collect();
            let any_permitted =
                |machine: &Machine, lent: &Lent, _| Choice::Any.step(&mut prng, machine, lent);
            Work::new(list, STANDS / lists, any_permitted)
        })
    }

    /// A loop of LD, ADR and STD, always stepped in the same order.
    pub fn periodic(length: usize, lists: usize) -> Works {
        const LOOP: [(Operation, u32); 3] =
            [(Operation::Ld, 0), (Operation::Adr, 2), (Operation::Std, 2)];
        const STEPS: [Step; 8] = [
            Step::Issue,
            Step::Arrival(0),
            Step::Issue,
            Step::Grant(Giver::Buffer(0)),
            Step::Completion(Tag::FIRST_ADDER_INDEX),
            Step::Grant(Giver::Station(Tag::FIRST_ADDER_INDEX)),
            Step::Issue,
            Step::Release(0),
        ];
        let word = |place: usize| {
            let (operation, r1) = LOOP[place % LOOP.len()];
            Fields { operation: operation.number(), r1, operand: 0 }.word()
        };
        Works::of(lists, || {
            let list: Vec<u32> = (0..length / LOOP.len() * LOOP.len()).map(word).collect();
            let count = list.len() / LOOP.len() * STEPS.len();
            let next_of_loop = |_: &Machine, _: &Lent, taken: usize| {
                (taken < count).then(|| STEPS[taken % STEPS.len()])
            };
            Work::new(list, STANDS / lists, next_of_loop)
        })
    }

    fn of(lists: usize, mut work: impl FnMut() -> Work) -> Works {
        Works(Rc::new((0..GROUPS).map(|_| (0..lists).map(|_| work()).collect()).collect()))
    }

    pub fn group(&self, round: usize) -> &[Work] {
        &self.0[round % GROUPS]
    }

    pub fn all(&self) -> impl Iterator<Item = &Work> {
        self.0.iter().flatten()
    }
}

/// Any operation, register and cell.
fn random_word(prng: &mut Prng) -> u32 {
    let (_, operation, _) = prng.pick(OPERATIONS);
    let register = |prng: &mut Prng| register_number(prng.below(REGISTERS));
    let r1 = register(prng);
    let operand =
        if operation.takes_register() { register(prng) } else { prng.below(CELL_LIMIT) as u32 };
    Fields { operation: operation.number(), r1, operand }.word()
}

impl Work {
    /// Takes the steps that `next` chooses until it has no more.
    fn new(
        list: Vec<u32>,
        stands: usize,
        mut next: impl FnMut(&Machine, &Lent, usize) -> Option<Step>,
    ) -> Work {
        // Near 1, so that neither side meets many slow subnormals.
        let operands: Vec<Number> = (0..CELL_LIMIT)
            .map(|cell| Number(0.75 + cell as f64 / CELL_LIMIT as f64 / 2.0))
            .collect();
        let starts = [1.0, 1.25, 0.75, 1.5].map(Number);
        let mut results = vec![Number::ZERO; CELL_LIMIT];
        let mut lent = Lent { list: &list, operands: &operands, results: &mut results };
        let (fresh, _) = Machine::fresh(&lent, starts);
        let (mut machine, mut codes, mut way) = (fresh, Vec::new(), Vec::new());
        while let Some(step) = next(&machine, &lent, codes.len()) {
            // Chosen among the permitted ones.
            let _ = machine.take(&mut lent, step);
            codes.push(step.code());
            way.push(machine);
        }
        let apart = way.len() / stands;
        let stands = way.iter().step_by(apart).map(|stand| (*stand, words_of(stand))).collect();
        let schedule = schedules::file(&codes.iter().map(|&code| code as u16).collect::<Vec<_>>());
        let file = list_file::encode(&list);
        Work { list, file, operands, starts, machine: fresh, codes, schedule, stands }
    }
}
