//! Translation: addresses in prefix order, entrances, followers, one instruction a symbol.

use super::text::{Function, Operation, Sort, Symbol, Term};
use crate::boundary::Head;

#[derive(Clone, Debug, PartialEq, Eq)]
pub enum Instruction {
    /// Position from 1.
    Eval {
        next: u32,
        position: u32,
    },
    Constant {
        next: u32,
        value: u32,
    },
    Exec {
        next: u32,
        operation: Operation,
    },
    Select {
        yes: u32,
        no: u32,
    },
    Call {
        next: u32,
        body: u32,
        strict: u32,
        waiting: Vec<u32>,
    },
    Ret,
}

impl Instruction {
    pub fn words(&self) -> [u32; 12] {
        let leading: Vec<u32> = match self {
            Instruction::Eval { next, position } => vec![1, *next, *position],
            Instruction::Constant { next, value } => vec![2, *next, 0, *value],
            Instruction::Exec { next, operation } => vec![2, *next, operation.number()],
            Instruction::Select { yes, no } => vec![3, 0, *yes, *no],
            Instruction::Call { next, body, strict, waiting } => [&[4, *next, *body, *strict], &waiting[..]].concat(),
            Instruction::Ret => vec![5, 0],
        };
        let mut words = [0; 12];
        words[..leading.len()].copy_from_slice(&leading);
        words
    }
}

/// A term with the address of its symbol.
struct Placed {
    address: u32,
    symbol: Symbol,
    arguments: Vec<Placed>,
}

/// Places a term's symbols in prefix order from `free` on.
fn place(term: &Term, free: &mut u32) -> Placed {
    let address = *free;
    *free += 1;
    let arguments = term.arguments.iter().map(|argument| place(argument, free)).collect();
    Placed { address, symbol: term.symbol, arguments }
}

/// The entry applied to its own arguments.
fn initial_term(functions: &[Function]) -> Term {
    let argument = |position| Term { symbol: Symbol::Argument(position), arguments: vec![] };
    Term { symbol: Symbol::Call(0), arguments: (0..functions[0].sorts.len()).map(argument).collect() }
}

fn symbols(term: &Term) -> usize {
    1 + term.arguments.iter().map(symbols).sum::<usize>()
}

/// All symbols and the one RET.
pub fn instruction_count(functions: &[Function]) -> usize {
    symbols(&initial_term(functions)) + functions.iter().map(|function| symbols(&function.body)).sum::<usize>() + 1
}

pub fn heads(functions: &[Function]) -> Vec<Head> {
    let mut body = symbols(&initial_term(functions));
    let mut heads = Vec::new();
    for function in functions {
        heads.push(Head {
            args: function.sorts.len() as u32,
            strict: function.strict as u32,
            result: (function.result == Sort::YesNo) as u32,
            body: body as u32,
        });
        body += symbols(&function.body);
    }
    heads
}

/// The code of a text, an instruction an address; the first runs at the entrance of address 0.
pub struct Code {
    pub instructions: Vec<Instruction>,
    pub start: u32,
}

impl IntoIterator for Code {
    type Item = Instruction;
    type IntoIter = std::vec::IntoIter<Instruction>;

    fn into_iter(self) -> Self::IntoIter {
        self.instructions.into_iter()
    }
}

pub fn translate(functions: &[Function]) -> Code {
    let mut free = 0;
    let initial = place(&initial_term(functions), &mut free);
    let bodies: Vec<Placed> = functions.iter().map(|function| place(&function.body, &mut free)).collect();
    let ret = free;
    let mut translation = Translation { functions, bodies: &bodies, ret, instructions: Vec::new() };
    translation.term(&initial, ret);
    for body in &bodies {
        translation.term(body, ret);
    }
    translation.instructions.push(Instruction::Ret);
    Code { start: translation.entrance(&initial), instructions: translation.instructions }
}

struct Translation<'a> {
    functions: &'a [Function],
    bodies: &'a [Placed],
    ret: u32,
    /// Those translated so far, in prefix order.
    instructions: Vec<Instruction>,
}

impl Translation<'_> {
    fn entrance(&self, term: &Placed) -> u32 {
        match term.symbol {
            Symbol::Argument(_) | Symbol::Constant(..) => term.address,
            Symbol::Call(callee) if self.functions[callee].strict == 0 => term.address,
            _ => self.entrance(&term.arguments[0]),
        }
    }

    /// Translates a term that is followed by the address `next`.
    fn term(&mut self, term: &Placed, next: u32) {
        assert_eq!(term.address as usize, self.instructions.len());
        let instruction = self.instruction(term, next);
        self.instructions.push(instruction);
        for index in 0..term.arguments.len() {
            let follower = self.follower(term, index, next);
            self.term(&term.arguments[index], follower);
        }
    }

    fn instruction(&self, term: &Placed, next: u32) -> Instruction {
        let entrances = |terms: &[Placed]| terms.iter().map(|argument| self.entrance(argument)).collect::<Vec<u32>>();
        match term.symbol {
            Symbol::Argument(position) => Instruction::Eval { next, position: position as u32 + 1 },
            Symbol::Constant(value, _) => Instruction::Constant { next, value },
            Symbol::Operation(operation) => Instruction::Exec { next, operation },
            Symbol::Cond => Instruction::Select { yes: self.entrance(&term.arguments[1]), no: self.entrance(&term.arguments[2]) },
            Symbol::Call(callee) => {
                let strict = self.functions[callee].strict;
                let waiting = entrances(&term.arguments[strict..]);
                Instruction::Call { next, body: self.entrance(&self.bodies[callee]), strict: strict as u32, waiting }
            }
        }
    }

    /// What follows the argument `index` (from 0) of a term that is itself followed by `next`.
    fn follower(&self, term: &Placed, index: usize, next: u32) -> u32 {
        let worked_out_first = match term.symbol {
            Symbol::Call(callee) => self.functions[callee].strict,
            Symbol::Cond => 1,
            _ => term.arguments.len(),
        };
        if index + 1 < worked_out_first {
            self.entrance(&term.arguments[index + 1])
        } else if index + 1 == worked_out_first {
            term.address
        } else if term.symbol == Symbol::Cond {
            next
        } else {
            self.ret
        }
    }
}
