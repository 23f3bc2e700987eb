//! Leftmost rewriting of closed terms, the definition that demands 2 and 3 compare with.

use super::text::{Function, Operation, Symbol, Term};

/// A closed term; a value is apart from the constant that becomes it.
#[derive(Clone)]
enum Closed {
    Value(u32),
    Constant(u32),
    Operation(Operation, Vec<Closed>),
    Cond(Vec<Closed>),
    Call(usize, Vec<Closed>),
}

#[derive(Clone, Copy, Debug, PartialEq, Eq)]
pub enum Rewriting {
    Value {
        value: u32,
        rewrites: u32,
    },
    /// The next rewrite would divide by 0.
    Zero {
        rewrites: u32,
    },
    /// No value after as many rewrites as were granted.
    Unfinished,
    /// The term would grow over the size granted; copies are not shared.
    TooLarge,
}

/// What one attempt grants.
#[derive(Clone, Copy)]
pub struct Granted {
    pub rewrites: u32,
    pub size: usize,
}

/// Rewrites the entry applied to values.
pub fn rewrite(functions: &[Function], args: &[u32], granted: Granted) -> Rewriting {
    let mut term = Closed::Call(0, args.iter().map(|value| Closed::Value(*value)).collect());
    let mut size = term.size();
    for rewrites in 0..=granted.rewrites {
        if let Closed::Value(value) = term {
            return Rewriting::Value { value, rewrites };
        }
        let redex = term.leftmost_redex(functions);
        if redex.divides_by_zero() {
            return Rewriting::Zero { rewrites };
        }
        let before = redex.size();
        let after = redex.size_once_rewritten(functions);
        size = size - before + after;
        if size > granted.size {
            return Rewriting::TooLarge;
        }
        redex.rewrite(functions);
    }
    Rewriting::Unfinished
}

impl Closed {
    fn is_value(&self) -> bool {
        matches!(self, Closed::Value(_))
    }

    fn size(&self) -> usize {
        match self {
            Closed::Value(_) | Closed::Constant(_) => 1,
            Closed::Operation(_, arguments) | Closed::Cond(arguments) | Closed::Call(_, arguments) => {
                1 + arguments.iter().map(Closed::size).sum::<usize>()
            }
        }
    }

    /// The subterm that leftmost rewriting replaces next; the term itself is no value.
    fn leftmost_redex(&mut self, functions: &[Function]) -> &mut Closed {
        match self.worked_out_first(functions).iter().position(|argument| !argument.is_value()) {
            Some(index) => self.arguments()[index].leftmost_redex(functions),
            None => self,
        }
    }

    /// The arguments that have to be values before the term itself is replaced.
    fn worked_out_first(&self, functions: &[Function]) -> &[Closed] {
        match self {
            Closed::Value(_) | Closed::Constant(_) => &[],
            Closed::Operation(_, arguments) => arguments,
            Closed::Cond(arguments) => &arguments[..1],
            Closed::Call(callee, arguments) => &arguments[..functions[*callee].strict],
        }
    }

    fn arguments(&mut self) -> &mut [Closed] {
        match self {
            Closed::Value(_) | Closed::Constant(_) => &mut [],
            Closed::Operation(_, arguments) | Closed::Cond(arguments) | Closed::Call(_, arguments) => arguments,
        }
    }

    fn value(&self) -> u32 {
        match self {
            Closed::Value(value) => *value,
            _ => panic!("a value is expected"),
        }
    }

    /// For a redex.
    fn divides_by_zero(&self) -> bool {
        matches!(self, Closed::Operation(operation, arguments) if operation.apply(&values_of(arguments)).is_none())
    }

    /// Replaces a redex that does not divide by 0.
    fn rewrite(&mut self, functions: &[Function]) {
        *self = match self {
            Closed::Value(_) => panic!("a value is not rewritten"),
            Closed::Constant(value) => Closed::Value(*value),
            Closed::Operation(operation, arguments) => {
                Closed::Value(operation.apply(&values_of(arguments)).expect("no division by 0"))
            }
            Closed::Cond(arguments) => {
                let branch = if arguments[0].value() == 1 { 1 } else { 2 };
                arguments.swap_remove(branch)
            }
            Closed::Call(callee, arguments) => put_in(&functions[*callee].body, arguments),
        };
    }

    /// The size of what replaces a redex, found without building it.
    fn size_once_rewritten(&self, functions: &[Function]) -> usize {
        match self {
            Closed::Value(_) | Closed::Constant(_) | Closed::Operation(..) => 1,
            Closed::Cond(arguments) => arguments[if arguments[0].value() == 1 { 1 } else { 2 }].size(),
            Closed::Call(callee, arguments) => {
                let sizes: Vec<usize> = arguments.iter().map(Closed::size).collect();
                size_put_in(&functions[*callee].body, &sizes)
            }
        }
    }
}

fn values_of(arguments: &[Closed]) -> Vec<u32> {
    arguments.iter().map(Closed::value).collect()
}

/// A body with arguments put in as they stand.
fn put_in(body: &Term, arguments: &[Closed]) -> Closed {
    let inner = || body.arguments.iter().map(|argument| put_in(argument, arguments)).collect::<Vec<Closed>>();
    match body.symbol {
        Symbol::Argument(position) => arguments[position].clone(),
        Symbol::Constant(value, _) => Closed::Constant(value),
        Symbol::Operation(operation) => Closed::Operation(operation, inner()),
        Symbol::Cond => Closed::Cond(inner()),
        Symbol::Call(callee) => Closed::Call(callee, inner()),
    }
}

fn size_put_in(body: &Term, sizes: &[usize]) -> usize {
    match body.symbol {
        Symbol::Argument(position) => sizes[position],
        _ => 1 + body.arguments.iter().map(|argument| size_put_in(argument, sizes)).sum::<usize>(),
    }
}
