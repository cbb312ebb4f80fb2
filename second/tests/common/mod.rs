//! A section with everything it is lent, for tests.
#![allow(dead_code)] // each test file uses its own part of this

use second::list_file;
use second::machine::{Lent, Machine, Operand, Record, Step};
use second::numbers::Number;
use second::refusal::Refusal;
use second::schedule::{self, RunAnswer};
use second::text::assembly;

pub struct Section {
    pub list: Vec<u32>,
    pub operands: Vec<Number>,
    pub results: Vec<Number>,
    pub machine: Machine,
}

pub const UNWRITTEN: Record = Record { place: 77, cell: 77, number: Number(77.0) };

pub fn words(text: &str) -> Vec<u32> {
    list_file::read_words(&assembly::assemble(text).unwrap()).unwrap()
}

impl Section {
    /// A fresh machine with 256 result cells of +0; instructions are parted by `/`.
    pub fn new(list: &str, operands: &[f64], start: [f64; 4]) -> Section {
        Section::of_words(words(&list.replace('/', "\n")), operands, start)
    }

    pub fn of_words(list: Vec<u32>, operands: &[f64], start: [f64; 4]) -> Section {
        let operands: Vec<Number> = operands.iter().copied().map(Number).collect();
        let mut results = vec![Number::ZERO; 256];
        let lent = Lent { list: &list, operands: &operands, results: &mut results };
        let (machine, _) = Machine::fresh(&lent, start.map(Number));
        Section { list, operands, results, machine }
    }

    pub fn split(&mut self) -> (&mut Machine, Lent<'_>) {
        let lent = Lent { list: &self.list, operands: &self.operands, results: &mut self.results };
        (&mut self.machine, lent)
    }

    /// The refusal number of one step.
    pub fn step(&mut self, code: u32) -> u32 {
        let (machine, mut lent) = self.split();
        Refusal::number_of(&machine.step(&mut lent, code))
    }

    /// Takes steps that must all be accepted.
    pub fn steps(&mut self, codes: &[u32]) {
        for &code in codes {
            assert_eq!(self.step(code), 0, "code {code} at {:?}", self.machine);
        }
    }

    pub fn run(&mut self, schedule: &[u8], log: &mut [Record]) -> RunAnswer {
        let (machine, mut lent) = self.split();
        schedule::run(machine, &mut lent, schedule, log)
    }

    pub fn left(&mut self) -> Result<usize, Refusal> {
        let (machine, lent) = self.split();
        machine.steps_left(&lent)
    }

    pub fn lowest(&mut self) -> Result<Option<u32>, Refusal> {
        let (machine, lent) = self.split();
        machine.lowest_step(&lent)
    }

    pub fn permitted(&mut self) -> Vec<Step> {
        let (machine, lent) = self.split();
        let limits = lent.limits();
        Step::all().filter(|&step| machine.permits(lent.list, limits, step)).collect()
    }

    /// The number in register 0, 2, 4 or 6.
    pub fn number(&self, register: usize) -> f64 {
        match self.machine.registers[register / 2] {
            Operand::Number(number) => number.0,
            Operand::Waits(tag) => panic!("F{register} waits for {tag:?}"),
        }
    }
}
