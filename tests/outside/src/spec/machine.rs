//! The machine of document 000, definition 69: an address and three stacks.

use super::code::{Code, Instruction};
use crate::boundary::{DEEP, FUEL, HALT, STUCK, ZERO};
use std::rc::Rc;

/// What a frame holds of one argument.
#[derive(Clone, Copy)]
enum Entry {
    Value(u32),
    Waiting(u32),
}

/// A chain of frames.
type Environment = Option<Rc<Frame>>;

struct Frame {
    entries: Vec<Entry>,
    below: Environment,
}

/// Where the machine goes: an address of the code, or the stop.
#[derive(Clone, Copy, PartialEq)]
enum Address {
    Code(u32),
    Stop,
}

/// The top of each stack is its last element.
struct State {
    address: Address,
    returns: Vec<Address>,
    data: Vec<u32>,
    environments: Vec<Environment>,
}

#[derive(Clone, Copy, Debug, PartialEq, Eq)]
pub struct Outcome {
    pub number: u32,
    pub value: u32,
    pub steps: u32,
    pub rewrites: u32,
    /// The greatest height of the return stack and of the data stack.
    pub highest: (usize, usize),
}

/// What the instruction at hand would do; none where there is no such step.
enum Prospect {
    /// The heights of return and data stack after the step, and whether it is a rewrite.
    Step { returns: usize, data: usize, rewrite: bool },
    /// It would divide by 0.
    Zero,
}

pub fn run(code: &Code, args: &[u32], limit: u32) -> Outcome {
    let first_frame = Frame { entries: args.iter().map(|value| Entry::Value(*value)).collect(), below: None };
    let mut state = State {
        address: Address::Code(code.start),
        returns: vec![Address::Stop],
        data: vec![],
        environments: vec![Some(Rc::new(first_frame))],
    };
    let mut outcome = Outcome { number: HALT, value: 0, steps: 0, rewrites: 0, highest: (1, 0) };
    loop {
        if let Some(value) = state.stopped() {
            return Outcome { number: HALT, value, ..outcome };
        }
        if outcome.steps == limit {
            return Outcome { number: FUEL, ..outcome };
        }
        let (returns, data, rewrite) = match state.prospect(code) {
            None => return Outcome { number: STUCK, ..outcome },
            Some(Prospect::Zero) => return Outcome { number: ZERO, ..outcome },
            Some(Prospect::Step { returns, data, rewrite }) => (returns, data, rewrite),
        };
        if returns > 512 || data > 512 {
            return Outcome { number: DEEP, ..outcome };
        }
        state.step(code);
        assert_eq!((state.returns.len(), state.data.len()), (returns, data));
        outcome.steps += 1;
        outcome.rewrites += rewrite as u32;
        outcome.highest = (outcome.highest.0.max(returns), outcome.highest.1.max(data));
    }
}

impl State {
    /// The value, once the machine is at the stop with one value left and nothing else.
    fn stopped(&self) -> Option<u32> {
        let at_stop = self.address == Address::Stop && self.returns.is_empty() && self.environments.is_empty();
        (at_stop && self.data.len() == 1).then(|| self.data[0])
    }

    fn instruction<'a>(&self, code: &'a Code) -> Option<&'a Instruction> {
        match self.address {
            Address::Code(address) => code.instructions.get(address as usize),
            Address::Stop => None,
        }
    }

    fn frame(&self) -> Option<&Rc<Frame>> {
        self.environments.last()?.as_ref()
    }

    fn entry(&self, position: u32) -> Option<Entry> {
        self.frame()?.entries.get(position.checked_sub(1)? as usize).copied()
    }

    fn prospect(&self, code: &Code) -> Option<Prospect> {
        let (returns, data) = (self.returns.len(), self.data.len());
        let step = |returns, data, rewrite| Some(Prospect::Step { returns, data, rewrite });
        match self.instruction(code)? {
            Instruction::Eval { position, .. } => match self.entry(*position)? {
                Entry::Value(_) => step(returns, data + 1, false),
                Entry::Waiting(_) => step(returns + 1, data, false),
            },
            Instruction::Constant { .. } => step(returns, data + 1, true),
            Instruction::Exec { operation, .. } => {
                let below = data.checked_sub(operation.arity())?;
                match operation.apply(&self.data[below..]) {
                    Some(_) => step(returns, below + 1, true),
                    None => Some(Prospect::Zero),
                }
            }
            Instruction::Select { .. } if *self.data.last()? <= 1 => step(returns, data - 1, true),
            Instruction::Select { .. } => None,
            Instruction::Call { strict, .. } => {
                self.environments.last()?;
                step(returns + 1, data.checked_sub(*strict as usize)?, true)
            }
            Instruction::Ret => {
                self.environments.last()?;
                step(returns.checked_sub(1)?, data, false)
            }
        }
    }

    /// One step; `prospect` has found that there is one.
    fn step(&mut self, code: &Code) {
        match self.instruction(code).unwrap() {
            Instruction::Eval { next, position } => match self.entry(*position).unwrap() {
                Entry::Value(value) => {
                    self.data.push(value);
                    self.address = Address::Code(*next);
                }
                Entry::Waiting(entrance) => {
                    let below = self.frame().unwrap().below.clone();
                    self.returns.push(Address::Code(*next));
                    self.environments.push(below);
                    self.address = Address::Code(entrance);
                }
            },
            Instruction::Constant { next, value } => {
                self.data.push(*value);
                self.address = Address::Code(*next);
            }
            Instruction::Exec { next, operation } => {
                let values = self.take(operation.arity());
                self.data.push(operation.apply(&values).unwrap());
                self.address = Address::Code(*next);
            }
            Instruction::Select { yes, no } => {
                let branch = if self.data.pop() == Some(1) { yes } else { no };
                self.address = Address::Code(*branch);
            }
            Instruction::Call { next, body, strict, waiting } => {
                let mut entries: Vec<Entry> = self.take(*strict as usize).into_iter().map(Entry::Value).collect();
                entries.extend(waiting.iter().map(|entrance| Entry::Waiting(*entrance)));
                let below = self.environments.last().unwrap().clone();
                self.returns.push(Address::Code(*next));
                self.environments.push(Some(Rc::new(Frame { entries, below })));
                self.address = Address::Code(*body);
            }
            Instruction::Ret => {
                self.address = self.returns.pop().unwrap();
                self.environments.pop();
            }
        }
    }

    /// Takes the upper `count` values off the data stack, lowest first.
    fn take(&mut self, count: usize) -> Vec<u32> {
        self.data.split_off(self.data.len() - count)
    }
}
