//! `steps`: what the proved test program `steps` should print of the sessions it is given.
//!
//! A session is a text of whole numbers; everything else in it is passed over: `words N` and the words (above 16 one word, N times),
//! `operands N`, `results N`, four starts, `changes N` of nine numbers each, `codes N`. A number of the machine is given in quarters.

use super::{read_file, Outcome};
use second::machine::{Buffer, Lent, Machine, Operand, Station, Step, StoreBuffer, Tag, REGISTERS};
use second::numbers::Number;
use second::one_at_a_time;
use second::refusal::Refusal;
use second::words::Arithmetic;
use std::array;
use std::fmt::Write;

/// Lists up to this length are written out.
const WRITTEN_OUT: usize = 16;

/// What a change puts; any other number puts a live store buffer.
const PUT_NEXT_PLACE: usize = 0;
const PUT_REGISTER: usize = 1;
const PUT_WAITING: usize = 2;
const PUT_FULL: usize = 3;
const PUT_HOLDING: usize = 4;
const PUT_DONE: usize = 5;

pub fn steps(arguments: &[String]) -> Outcome {
    let mut text = String::new();
    for name in arguments {
        let bytes = read_file(name)?;
        let _ = writeln!(text, "{name}");
        session(&mut text, &mut Numbers { bytes: &bytes, at: 0 });
    }
    Ok(text.into())
}

/// The numbers of a session, one after another; 0 after the last.
struct Numbers<'a> {
    bytes: &'a [u8],
    at: usize,
}

impl Numbers<'_> {
    fn next(&mut self) -> usize {
        let is_digit = |at: usize| self.bytes.get(at).is_some_and(u8::is_ascii_digit);
        let start =
            (self.at..self.bytes.len()).find(|&at| is_digit(at)).unwrap_or(self.bytes.len());
        let end = (start..).find(|&at| !is_digit(at)).unwrap();
        self.at = end;
        self.bytes[start..end].iter().fold(0, |value, digit| value * 10 + usize::from(digit - b'0'))
    }

    fn quarters(&mut self) -> Number {
        quarters(self.next())
    }

    fn row<T>(&mut self, read: impl Fn(&mut Self) -> T) -> Vec<T> {
        let count = self.next();
        (0..count).map(|_| read(self)).collect()
    }

    fn words(&mut self) -> Vec<u32> {
        match self.next() {
            count @ 0..=WRITTEN_OUT => (0..count).map(|_| self.next() as u32).collect(),
            count => vec![self.next() as u32; count],
        }
    }

    fn operand(&mut self) -> Operand {
        let waits = self.next() != 0;
        let value = self.next();
        if waits {
            Operand::Waits(Tag(value as u8))
        } else {
            Operand::Number(quarters(value))
        }
    }

    /// What a change puts, and where: index, place, cell, operation, sink and source.
    fn change(&mut self, machine: &mut Machine) {
        let [what, index, place, cell, operation] = array::from_fn(|_| self.next());
        let (sink, source) = (self.operand(), self.operand());
        let number = match sink {
            Operand::Number(number) => number,
            Operand::Waits(_) => Number::ZERO,
        };
        match what {
            PUT_NEXT_PLACE => machine.next = place,
            PUT_REGISTER => machine.registers[index] = sink,
            PUT_WAITING => machine.buffers[index] = Buffer::Waiting { place, cell },
            PUT_FULL => machine.buffers[index] = Buffer::Full { place, number },
            PUT_HOLDING => {
                let operation = Arithmetic::ALL[operation];
                machine.stations[index] = Station::Holding { place, operation, sink, source }
            }
            PUT_DONE => machine.stations[index] = Station::Done { place, result: number },
            _ => machine.stores[index] = StoreBuffer::Live { place, cell, operand: sink },
        }
    }
}

fn quarters(count: usize) -> Number {
    Number(count as f64 / 4.0)
}

fn session(text: &mut String, numbers: &mut Numbers) {
    let list = numbers.words();
    let operands = numbers.row(Numbers::quarters);
    let mut results = vec![Number::ZERO; numbers.next()];
    let starts = [(); REGISTERS].map(|()| numbers.quarters());
    let mut lent = Lent { list: &list, operands: &operands, results: &mut results };
    let (mut machine, answer) = Machine::fresh(&lent, starts);
    let _ = writeln!(text, "fresh {}", Refusal::number_of(&answer));
    for _ in 0..numbers.next() {
        numbers.change(&mut machine);
    }
    for code in numbers.row(|numbers| numbers.next() as u32) {
        one_code(text, &mut machine, &mut lent, code);
    }
    standing(text, &machine, &lent);
    let mut cells = vec![Number::ZERO; lent.results.len()];
    let (registers, answer) = one_at_a_time::run(&mut Lent { results: &mut cells, ..lent }, starts);
    let _ = write!(text, "alone {}", Refusal::number_of(&answer));
    registers.iter().chain(&cells).for_each(|number| say_number(text, *number));
    text.push('\n');
}

/// A code, its refusal, and what it released.
fn one_code(text: &mut String, machine: &mut Machine, lent: &mut Lent, code: u32) {
    let before = *machine;
    let answer = machine.step(lent, code);
    let _ = write!(text, "{code} {}", Refusal::number_of(&answer));
    if let (Ok(()), Some(Step::Release(index))) = (answer, Step::of_code(code)) {
        let record = before.release_record(index).unwrap();
        let _ = write!(text, " release {} {}", record.place, record.cell);
        say_number(text, record.number);
    }
    text.push('\n');
}

/// Good order, drained, steps left, lowest step, registers and result cells.
fn standing(text: &mut String, machine: &Machine, lent: &Lent) {
    let order = machine.in_good_order(lent.list.len(), lent.limits());
    let drained = machine.drained(lent.list.len());
    let left = machine.steps_left(lent);
    let lowest = machine.lowest_step(lent);
    let _ = write!(text, "order {} drained {}", u8::from(order), u8::from(drained));
    let _ = write!(text, " left {} {}", Refusal::number_of(&left), left.unwrap_or(0));
    let code = lowest.unwrap_or(None).map_or("none".into(), |code| code.to_string());
    let _ = write!(text, " lowest {} {code}\nregisters", Refusal::number_of(&lowest));
    for register in machine.registers {
        match register {
            Operand::Number(number) => say_number(text, number),
            Operand::Waits(tag) => {
                let _ = write!(text, " tag {}", tag.0);
            }
        }
    }
    text.push_str("\ncells");
    lent.results.iter().for_each(|number| say_number(text, *number));
    text.push('\n');
}

fn say_number(text: &mut String, number: Number) {
    let _ = write!(text, " {:016x}", number.pattern());
}
