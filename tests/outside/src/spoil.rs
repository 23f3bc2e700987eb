//! Spoils a text: in its bytes, its fields or its lines.

use crate::dice::Dice;

/// Fields that are right somewhere and wrong elsewhere.
const FIELDS: [&str; 58] = [
    "a",
    "b",
    "c",
    "d",
    "e",
    "f",
    "g",
    "h",
    "i",
    "A",
    "X",
    "LOOP",
    "COUNT",
    "GAP",
    "HAND",
    "0",
    "1",
    "2",
    "8",
    "9",
    "10",
    "00",
    "01",
    "-1",
    "+1",
    "1.0",
    "4294967295",
    "4294967296",
    "4294967300",
    "9999999999",
    "10000000000",
    "42949672950",
    "true",
    "false",
    "True",
    "cond",
    "con",
    "condx",
    "+",
    "-",
    "*",
    "/",
    "%",
    "=",
    "<",
    "&",
    "|",
    "!",
    ">",
    "==",
    "n",
    "b",
    "nn",
    "nb",
    "nnnnnnnn",
    "nnnnnnnnn",
    "ABCDEFGH",
    "ABCDEFGHI",
];

/// Bytes at the edges of what a field may hold.
const BYTES: [u8; 16] = [0, 9, 9, 10, 10, 13, 31, 32, 33, 48, 65, 126, 127, 128, 200, 255];

pub fn field(dice: &mut Dice) -> Vec<u8> {
    dice.pick(&FIELDS).as_bytes().to_vec()
}

pub fn text(dice: &mut Dice, text: &mut Vec<u8>) {
    if text.is_empty() || dice.once_in(4) {
        bytes(dice, text);
    } else {
        fields(dice, text);
    }
}

fn bytes(dice: &mut Dice, text: &mut Vec<u8>) {
    let place = dice.below(text.len() + 1);
    if place == text.len() || dice.once_in(3) {
        return text.insert(place, dice.pick(&BYTES));
    }
    match dice.below(6) {
        0 => text[place] ^= 1 << dice.below(8),
        1 => text[place] = dice.pick(&BYTES),
        2 => {
            text.remove(place);
        }
        3 => text.truncate(place),
        4 => {
            text.pop();
        }
        _ => text[place] = dice.throw() as u8,
    }
}

/// Lines of fields; the last line is what stands after the last byte 10, mostly nothing.
fn parted(text: &[u8]) -> Vec<Vec<Vec<u8>>> {
    let line = |line: &[u8]| line.split(|byte| *byte == 9).map(|field| field.to_vec()).collect();
    text.split(|byte| *byte == 10).map(line).collect()
}

fn joined(lines: &[Vec<Vec<u8>>]) -> Vec<u8> {
    let lines: Vec<Vec<u8>> = lines.iter().map(|fields| fields.join(&9)).collect();
    lines.join(&10)
}

fn fields(dice: &mut Dice, text: &mut Vec<u8>) {
    let mut lines = parted(text);
    let line = dice.below(lines.len());
    let place = dice.below(lines[line].len());
    let (other_line, other) = {
        let line = dice.below(lines.len());
        (line, dice.below(lines[line].len()))
    };
    match dice.below(18) {
        16.. => end_of(dice, &mut lines[line][place]),
        12.. if lines[line].len() > 4 => {
            let place = dice.range(4, lines[line].len() - 1);
            lines[line][place] = field(dice);
        }
        0 => {
            lines[line].remove(place);
        }
        1 => {
            let doubled = lines[line][place].clone();
            lines[line].insert(place, doubled);
        }
        2 => {
            let swapped = std::mem::take(&mut lines[line][place]);
            let swapped = std::mem::replace(&mut lines[other_line][other], swapped);
            lines[line][place] = swapped;
        }
        3 | 4 => lines[line][place] = field(dice),
        5 => lines[line].insert(place, field(dice)),
        6 => {
            let doubled = lines[line].clone();
            lines.insert(other_line, doubled);
        }
        7 => lines.swap(line, other_line),
        8 => {
            lines.remove(line);
        }
        9 => lines[line][0] = lines[other_line][0].clone(),
        10 => opening(dice, &mut lines[line]),
        _ => lines[line].truncate(place),
    }
    *text = joined(&lines);
}

/// Changes the end of a field: a name or a decimal that is nearly another.
fn end_of(dice: &mut Dice, field: &mut Vec<u8>) {
    if dice.once_in(2) {
        field.pop();
    }
    if dice.below(3) > 0 {
        field.push(dice.pick(b"AZ09aZ05"));
    }
}

/// Changes one of the first four fields to another that could stand there.
fn opening(dice: &mut Dice, fields: &mut [Vec<u8>]) {
    let place = dice.below(4).min(fields.len() - 1);
    let other = match place {
        0 => dice.pick(&["A", "Z9", "ABCDEFGH", "ABCDEFGHI", "a", "9", "A_"]),
        1 => dice.pick(&["0", "1", "2", "3", "8", "9", "00", "x"]),
        2 => dice.pick(&["n", "b", "nb", "bn", "nn", "bbb", "nnnnnnnn", "nnnnnnnnn", "nx"]),
        _ => dice.pick(&["n", "b", "x", "nn"]),
    };
    fields[place] = other.as_bytes().to_vec();
}
