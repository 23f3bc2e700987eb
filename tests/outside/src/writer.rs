//! Writes rule texts: names, openings, well-sorted terms.

use crate::dice::Dice;
use crate::spec::text::Sort;
use std::collections::HashSet;

/// A function as it is written down; nothing says that it is right.
#[derive(Clone)]
pub struct Line {
    pub name: String,
    pub strict: usize,
    pub sorts: Vec<Sort>,
    pub result: Sort,
    pub body: Vec<String>,
}

pub fn write(lines: &[Line]) -> Vec<u8> {
    let mut text = Vec::new();
    for line in lines {
        let sorts: String = line.sorts.iter().map(|sort| letter(*sort)).collect();
        let opening = format!("{}\t{}\t{}\t{}", line.name, line.strict, sorts, letter(line.result));
        text.extend(opening.bytes());
        for symbol in &line.body {
            text.push(9);
            text.extend(symbol.bytes());
        }
        text.push(10);
    }
    text
}

fn letter(sort: Sort) -> char {
    match sort {
        Sort::Number => 'n',
        Sort::YesNo => 'b',
    }
}

pub fn argument(position: usize) -> String {
    ((b'a' + position as u8) as char).to_string()
}

/// Symbols from a string with blanks between them.
pub fn symbols(blanks: &str) -> Vec<String> {
    blanks.split(' ').map(String::from).collect()
}

/// Lines from a string, with blanks for tabs and `;` for the end of a line.
pub fn text_of(blanks: &str) -> Vec<u8> {
    blanks.replace(' ', "\t").replace(';', "\n").into_bytes()
}

const CAPITALS: &[u8] = b"ABCDEFGHIJKLMNOPQRSTUVWXYZ";
const CAPITALS_AND_DIGITS: &[u8] = b"ABCDEFGHIJKLMNOPQRSTUVWXYZ0123456789";

/// Different names, `count` of them; at times they are all alike but for their ends.
pub fn names(dice: &mut Dice, count: usize) -> Vec<String> {
    let stem = if dice.once_in(4) { name(dice) } else { String::new() };
    let mut taken = HashSet::new();
    let mut names = Vec::new();
    while names.len() < count {
        let mut name = if stem.is_empty() || dice.once_in(9) { name(dice) } else { stem.clone() };
        if dice.once_in(2) {
            name.pop();
        }
        while name.is_empty() || (name.len() < 8 && dice.once_in(2)) {
            let letters = if name.is_empty() { CAPITALS } else { CAPITALS_AND_DIGITS };
            name.push(dice.pick(letters) as char);
        }
        if taken.insert(name.clone()) {
            names.push(name);
        }
    }
    names
}

fn name(dice: &mut Dice) -> String {
    let mut name = (dice.pick(CAPITALS) as char).to_string();
    let longest = dice.pick(&[0, 1, 3, 7, 7]);
    for _ in 0..dice.range(0, longest) {
        name.push(dice.pick(CAPITALS_AND_DIGITS) as char);
    }
    name
}

fn sort(dice: &mut Dice) -> Sort {
    if dice.below(10) < 7 {
        Sort::Number
    } else {
        Sort::YesNo
    }
}

/// Lines that lack their bodies.
pub fn openings(dice: &mut Dice, count: usize) -> Vec<Line> {
    let mut lines = Vec::new();
    for name in names(dice, count) {
        let arguments = match dice.below(12) {
            0 => 8,
            1 | 2 => dice.range(4, 8),
            _ => dice.range(1, 3),
        };
        let sorts: Vec<Sort> = (0..arguments).map(|_| sort(dice)).collect();
        let strict = dice.range(0, sorts.len());
        let result = sort(dice);
        lines.push(Line { name, strict, sorts, result, body: vec![] });
    }
    lines
}

/// Writes well-sorted terms over given openings.
struct Writer<'a> {
    dice: &'a mut Dice,
    lines: &'a [Line],
    own: usize,
    body: Vec<String>,
    calls: Calls<'a>,
}

/// Which calls a term may hold.
#[derive(Clone, Copy)]
pub enum Calls<'a> {
    None,
    Any,
    /// Each function has a number that falls from call to call; these are their positions.
    Falling(&'a [usize]),
}

impl Writer<'_> {
    /// Writes a term of about `budget` symbols at most, over at most `levels` of depth.
    fn term(&mut self, sort: Sort, budget: usize, levels: usize) {
        if budget < 2 || levels < 2 || self.dice.once_in(9) {
            return self.leaf(sort);
        }
        match self.dice.below(10) {
            0..=2 if budget >= 4 => self.inner("cond", &[Sort::YesNo, sort, sort], budget, levels),
            3..=5 => self.call_or_leaf(sort, budget, levels),
            _ => self.operation(sort, budget, levels),
        }
    }

    fn leaf(&mut self, sort: Sort) {
        let own = &self.lines[self.own];
        let fitting: Vec<usize> = (0..own.sorts.len()).filter(|position| own.sorts[*position] == sort).collect();
        let symbol = if !fitting.is_empty() && self.dice.below(3) > 0 {
            argument(self.dice.pick(&fitting))
        } else if sort == Sort::YesNo {
            self.dice.pick(&["true", "false"]).to_string()
        } else {
            number(self.dice).to_string()
        };
        self.body.push(symbol);
    }

    fn operation(&mut self, sort: Sort, budget: usize, levels: usize) {
        use Sort::*;
        if sort == Number {
            return match self.dice.pick(&["+", "-", "*", "/", "%"]) {
                symbol @ ("/" | "%") if self.dice.below(5) > 0 => self.safe_division(symbol, budget, levels),
                symbol => self.inner(symbol, &[Number, Number], budget, levels),
            };
        }
        match self.dice.below(5) {
            0 => self.inner("!", &[YesNo], budget, levels),
            1 => self.inner("=", &[Number, Number], budget, levels),
            2 => self.inner("<", &[Number, Number], budget, levels),
            3 => self.inner("&", &[YesNo, YesNo], budget, levels),
            _ => self.inner("|", &[YesNo, YesNo], budget, levels),
        }
    }

    /// A division that does not end the run: most are to be of this kind.
    fn safe_division(&mut self, symbol: &str, budget: usize, levels: usize) {
        self.body.push(symbol.to_string());
        self.term(Sort::Number, budget - 1, levels - 1);
        let divisor = number(self.dice).max(1);
        self.body.push(divisor.to_string());
    }

    fn inner(&mut self, symbol: &str, sorts: &[Sort], budget: usize, levels: usize) {
        self.body.push(symbol.to_string());
        let shares = self.shares(budget - 1, sorts.len());
        for (sort, share) in sorts.iter().zip(shares) {
            self.term(*sort, share, levels - 1);
        }
    }

    fn call_or_leaf(&mut self, sort: Sort, budget: usize, levels: usize) {
        let lines = self.lines;
        let fits = |line: &Line| line.result == sort && line.sorts.len() < budget;
        let callees: Vec<usize> = (0..lines.len()).filter(|index| fits(&lines[*index])).collect();
        match self.calls {
            Calls::Any if !callees.is_empty() => {
                let callee = &lines[self.dice.pick(&callees)];
                self.inner(&callee.name, &callee.sorts, budget, levels)
            }
            Calls::Falling(positions) if !callees.is_empty() && levels >= 3 => {
                let callee = self.dice.pick(&callees);
                self.falling_call(callee, positions, budget, levels)
            }
            _ => self.leaf(sort),
        }
    }

    /// A call that hands its callee a smaller number than it was handed itself.
    fn falling_call(&mut self, callee: usize, positions: &[usize], budget: usize, levels: usize) {
        let callee_line = &self.lines[callee];
        self.body.push(callee_line.name.clone());
        let shares = self.shares(budget - 1, callee_line.sorts.len());
        for (position, share) in shares.into_iter().enumerate() {
            if position == positions[callee] {
                let (operation, by) = self.dice.pick(&[("-", "1"), ("-", "1"), ("-", "2"), ("/", "2"), ("/", "3")]);
                self.body.extend([operation.to_string(), argument(positions[self.own]), by.to_string()]);
            } else {
                self.term(callee_line.sorts[position], share, levels - 1);
            }
        }
    }

    /// Parts of a budget: spread, or nearly all of it in one place.
    fn shares(&mut self, total: usize, parts: usize) -> Vec<usize> {
        let mut shares = vec![1; parts];
        let rest = total.saturating_sub(parts);
        if self.dice.once_in(2) {
            shares[self.dice.below(parts)] += rest;
        } else {
            for _ in 0..4 {
                shares[self.dice.below(parts)] += rest / 4;
            }
        }
        shares
    }
}

pub fn term(dice: &mut Dice, lines: &[Line], own: usize, calls: Calls, sort: Sort, budget: usize, levels: usize) -> Vec<String> {
    let mut writer = Writer { dice, lines, own, body: vec![], calls };
    writer.term(sort, budget, levels);
    writer.body
}

pub fn value(dice: &mut Dice, sort: Sort) -> u32 {
    match sort {
        Sort::YesNo => dice.below(2) as u32,
        Sort::Number => number(dice),
    }
}

/// A number, mostly small or at an end of the range.
pub fn number(dice: &mut Dice) -> u32 {
    match dice.below(10) {
        0..=5 => dice.below(16) as u32,
        6 => dice.below(600) as u32,
        7 => u32::MAX - dice.below(12) as u32,
        8 => 1 << dice.below(32),
        _ => dice.throw() as u32,
    }
}
