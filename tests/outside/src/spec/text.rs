//! Rule text: from bytes to functions, or to a refusal with its place.

use crate::boundary::{COUNT, LINE, LONG, NAME, NEST, SHORT, SORT, TERM, UNKNOWN};

#[derive(Clone, Copy, Debug, PartialEq, Eq)]
pub enum Sort {
    Number,
    YesNo,
}

#[derive(Clone, Copy, Debug, PartialEq, Eq)]
pub enum Operation {
    Add,
    Subtract,
    Multiply,
    Divide,
    Remainder,
    Equal,
    Less,
    And,
    Or,
    Not,
}

#[derive(Clone, Copy, Debug, PartialEq, Eq)]
pub enum Symbol {
    /// Position from 0.
    Argument(usize),
    Constant(u32, Sort),
    Operation(Operation),
    Cond,
    /// The function's line from 0.
    Call(usize),
}

#[derive(Clone, Debug)]
pub struct Term {
    pub symbol: Symbol,
    pub arguments: Vec<Term>,
}

#[derive(Clone, Debug)]
pub struct Function {
    pub strict: usize,
    pub sorts: Vec<Sort>,
    pub result: Sort,
    pub body: Term,
}

/// A number and the place it names; 0 where none is named.
#[derive(Clone, Copy, Debug, PartialEq, Eq)]
pub struct Refusal {
    pub number: u32,
    pub line: usize,
    pub field: usize,
}

impl Refusal {
    pub fn without_place(number: u32) -> Refusal {
        Refusal { number, line: 0, field: 0 }
    }

    fn at(number: u32, line: usize, field: usize) -> Refusal {
        Refusal { number, line, field }
    }
}

/// A line as its fields.
type Fields<'a> = Vec<&'a [u8]>;

/// Fields 1 to 4 of a line of good shape.
struct Opening<'a> {
    name: &'a [u8],
    strict: usize,
    sorts: Vec<Sort>,
    result: Sort,
}

/// The functions of an accepted text; refusals 1 to 4 in their order, then 5, 6 and 13 to 15 by the first place.
pub fn read(text: &[u8]) -> Result<Vec<Function>, Refusal> {
    if text.len() > 16384 {
        return Err(Refusal::without_place(LONG));
    }
    let lines = lines_in_shape(text)?;
    count(&lines)?;
    names_differ(&lines)?;
    let openings: Vec<Opening> = lines.iter().map(opening).collect();
    let mut functions = Vec::new();
    for (index, fields) in lines.iter().enumerate() {
        functions.push(function(index, fields, &openings)?);
    }
    Ok(functions)
}

// LINE

fn lines_in_shape(text: &[u8]) -> Result<Vec<Fields<'_>>, Refusal> {
    if text.is_empty() {
        return Err(Refusal::at(LINE, 1, 1));
    }
    let mut pieces: Vec<&[u8]> = text.split(|byte| *byte == 10).collect();
    let after_last_end = pieces.pop().unwrap();
    let mut lines = Vec::new();
    for (index, piece) in pieces.iter().enumerate() {
        let fields: Fields = piece.split(|byte| *byte == 9).collect();
        if let Some(field) = wrong_field(&fields) {
            return Err(Refusal::at(LINE, index + 1, field));
        }
        lines.push(fields);
    }
    if !after_last_end.is_empty() {
        return Err(Refusal::at(LINE, pieces.len() + 1, 0));
    }
    Ok(lines)
}

/// The first field of a line that is wrong, from 1.
fn wrong_field(fields: &Fields) -> Option<usize> {
    for (index, field) in fields.iter().enumerate() {
        let right = !field.is_empty() && field.iter().all(|byte| (33..=126).contains(byte)) && form_is_right(index + 1, fields);
        if !right {
            return Some(index + 1);
        }
    }
    if fields.len() < 5 {
        return Some(fields.len() + 1);
    }
    None
}

/// The form of a field that is not empty; those before it are right.
fn form_is_right(number: usize, fields: &Fields) -> bool {
    let field = fields[number - 1];
    match number {
        1 => is_name(field),
        2 => field.len() == 1 && (b'0'..=b'8').contains(&field[0]),
        3 => field.len() <= 8 && field.iter().all(is_sort) && digit(fields[1]) <= field.len(),
        4 => field.len() == 1 && is_sort(&field[0]),
        _ => true,
    }
}

fn is_name(field: &[u8]) -> bool {
    field.len() <= 8
        && field[0].is_ascii_uppercase()
        && field.iter().all(|byte| byte.is_ascii_uppercase() || byte.is_ascii_digit())
}

fn is_sort(letter: &u8) -> bool {
    *letter == b'n' || *letter == b'b'
}

fn sort(letter: &u8) -> Sort {
    if *letter == b'n' {
        Sort::Number
    } else {
        Sort::YesNo
    }
}

fn digit(field: &[u8]) -> usize {
    (field[0] - b'0') as usize
}

fn opening<'a>(fields: &Fields<'a>) -> Opening<'a> {
    Opening {
        name: fields[0],
        strict: digit(fields[1]),
        sorts: fields[2].iter().map(sort).collect(),
        result: sort(&fields[3][0]),
    }
}

// COUNT and NAME

fn count(lines: &[Fields]) -> Result<(), Refusal> {
    if lines.len() > 64 {
        return Err(Refusal::at(COUNT, 65, 0));
    }
    let mut symbols = 0;
    for (index, fields) in lines.iter().enumerate() {
        for field in 5..=fields.len() {
            symbols += 1;
            if symbols == 1025 {
                return Err(Refusal::at(COUNT, index + 1, field));
            }
        }
    }
    Ok(())
}

fn names_differ(lines: &[Fields]) -> Result<(), Refusal> {
    for (index, fields) in lines.iter().enumerate() {
        if lines[..index].iter().any(|earlier| earlier[0] == fields[0]) {
            return Err(Refusal::at(NAME, index + 1, 1));
        }
    }
    Ok(())
}

// TERM, NEST, UNKNOWN, SORT and SHORT

fn function(index: usize, fields: &Fields, openings: &[Opening]) -> Result<Function, Refusal> {
    let own = &openings[index];
    let mut reader = BodyReader { fields, next: 5, own, openings };
    let read = reader.body();
    let body = read.map_err(|(number, field)| Refusal::at(number, index + 1, field))?;
    Ok(Function { strict: own.strict, sorts: own.sorts.clone(), result: own.result, body })
}

/// Reads one body; `next` is the number of the field to read next.
struct BodyReader<'a> {
    fields: &'a Fields<'a>,
    next: usize,
    own: &'a Opening<'a>,
    openings: &'a [Opening<'a>],
}

impl BodyReader<'_> {
    /// One term of the result's sort and nothing left over; else a number and a field.
    fn body(&mut self) -> Result<Term, (u32, usize)> {
        let term = self.term(self.own.result, 1)?;
        if self.next <= self.fields.len() {
            return Err((TERM, self.next));
        }
        Ok(term)
    }

    fn term(&mut self, expected: Sort, depth: usize) -> Result<Term, (u32, usize)> {
        let place = self.next;
        if place > self.fields.len() {
            return Err((SHORT, place));
        }
        if depth > 32 {
            return Err((NEST, place));
        }
        let symbol = self.symbol(self.fields[place - 1]).ok_or((UNKNOWN, place))?;
        let (takes, gives) = self.kind(symbol, expected);
        if gives != expected {
            return Err((SORT, place));
        }
        self.next += 1;
        let mut arguments = Vec::new();
        for sort in takes {
            arguments.push(self.term(sort, depth + 1)?);
        }
        Ok(Term { symbol, arguments })
    }

    /// None for an unknown symbol and for an argument that the function lacks.
    fn symbol(&self, field: &[u8]) -> Option<Symbol> {
        use Operation::*;
        Some(match field {
            b"true" => Symbol::Constant(1, Sort::YesNo),
            b"false" => Symbol::Constant(0, Sort::YesNo),
            b"cond" => Symbol::Cond,
            b"+" => Symbol::Operation(Add),
            b"-" => Symbol::Operation(Subtract),
            b"*" => Symbol::Operation(Multiply),
            b"/" => Symbol::Operation(Divide),
            b"%" => Symbol::Operation(Remainder),
            b"=" => Symbol::Operation(Equal),
            b"<" => Symbol::Operation(Less),
            b"&" => Symbol::Operation(And),
            b"|" => Symbol::Operation(Or),
            b"!" => Symbol::Operation(Not),
            [letter @ b'a'..=b'h'] => {
                let position = (letter - b'a') as usize;
                (position < self.own.sorts.len()).then_some(Symbol::Argument(position))?
            }
            [b'0'..=b'9', ..] => Symbol::Constant(decimal(field)?, Sort::Number),
            name => Symbol::Call(self.openings.iter().position(|opening| opening.name == name)?),
        })
    }

    /// The sorts a symbol takes and the sort it gives; `cond` gives what is expected of it.
    fn kind(&self, symbol: Symbol, expected: Sort) -> (Vec<Sort>, Sort) {
        use Sort::*;
        match symbol {
            Symbol::Argument(position) => (vec![], self.own.sorts[position]),
            Symbol::Constant(_, sort) => (vec![], sort),
            Symbol::Operation(operation) => operation.kind(),
            Symbol::Cond => (vec![YesNo, expected, expected], expected),
            Symbol::Call(callee) => (self.openings[callee].sorts.clone(), self.openings[callee].result),
        }
    }
}

/// A decimal from 0 to 4294967295 without leading zeros.
pub fn decimal(field: &[u8]) -> Option<u32> {
    if field.is_empty() || field.len() > 10 || !field.iter().all(u8::is_ascii_digit) || (field.len() > 1 && field[0] == b'0') {
        return None;
    }
    let value = field.iter().fold(0u64, |value, digit| value * 10 + (digit - b'0') as u64);
    u32::try_from(value).ok()
}

impl Operation {
    fn kind(self) -> (Vec<Sort>, Sort) {
        use Operation::*;
        use Sort::*;
        match self {
            Add | Subtract | Multiply | Divide | Remainder => (vec![Number, Number], Number),
            Equal | Less => (vec![Number, Number], YesNo),
            And | Or => (vec![YesNo, YesNo], YesNo),
            Not => (vec![YesNo], YesNo),
        }
    }

    pub fn arity(self) -> usize {
        self.kind().0.len()
    }

    /// The number of the operation in an EXEC instruction.
    pub fn number(self) -> u32 {
        use Operation::*;
        match self {
            Add => 1,
            Subtract => 2,
            Multiply => 3,
            Divide => 4,
            Remainder => 5,
            Equal => 6,
            Less => 7,
            And => 8,
            Or => 9,
            Not => 10,
        }
    }

    /// The operation on values; yes is 1, no is 0. None where it divides by 0.
    pub fn apply(self, values: &[u32]) -> Option<u32> {
        use Operation::*;
        let two_to_32: u64 = 1 << 32;
        let wide: Vec<u64> = values.iter().map(|value| *value as u64).collect();
        let result = match self {
            Add => (wide[0] + wide[1]) % two_to_32,
            Subtract => (wide[0] + two_to_32 - wide[1]) % two_to_32,
            Multiply => (wide[0] * wide[1]) % two_to_32,
            Divide => wide[0].checked_div(wide[1])?,
            Remainder => wide[0].checked_rem(wide[1])?,
            Equal => (wide[0] == wide[1]) as u64,
            Less => (wide[0] < wide[1]) as u64,
            And => (wide[0] == 1 && wide[1] == 1) as u64,
            Or => (wide[0] == 1 || wide[1] == 1) as u64,
            Not => (wide[0] == 0) as u64,
        };
        Some(result as u32)
    }
}
