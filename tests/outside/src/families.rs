//! Families of texts, each with its own kind of trouble.

use crate::dice::Dice;
use crate::dividing;
use crate::spec::text::{self, Sort};
use crate::spoil;
use crate::writer::{argument, names, number, openings, symbols, term, text_of, value, write, Calls, Line};

/// A text and, where the family has a wish, its arguments.
pub struct Draft {
    pub text: Vec<u8>,
    pub args: Option<Vec<u32>>,
}

type Family = (&'static str, usize, fn(&mut Dice) -> Draft);

/// Name, weight and maker of each family.
const FAMILIES: [Family; 14] = [
    ("loose", 22, loose),
    ("falling", 22, falling),
    ("nested", 5, nested),
    ("calling", 4, calling),
    ("handing", 3, handing),
    ("looping", 4, looping),
    ("dividing", 8, dividing::looked_at),
    ("passed over", 1, dividing::passed_over),
    ("many functions", 2, many_functions),
    ("many symbols", 2, many_symbols),
    ("long", 2, long),
    ("edges", 6, edges),
    ("spoilt", 30, spoilt),
    ("scrap", 6, scrap),
];

/// A family by its weight, and a text of it.
pub fn draft(dice: &mut Dice) -> (&'static str, Draft) {
    let mut throw = dice.below(FAMILIES.iter().map(|(_, weight, _)| weight).sum());
    for (name, weight, make) in FAMILIES {
        if throw < weight {
            return (name, make(dice));
        }
        throw -= weight;
    }
    unreachable!()
}

/// Well-sorted functions that call each other as they like.
fn loose(dice: &mut Dice) -> Draft {
    Draft { text: write(&loose_lines(dice)), args: None }
}

fn loose_lines(dice: &mut Dice) -> Vec<Line> {
    let most = dice.pick(&[1, 2, 4, 8]);
    let count = dice.range(1, most);
    let mut lines = openings(dice, count);
    let budget = dice.pick(&[3, 6, 12, 30, 60]);
    for own in 0..count {
        lines[own].body = term(dice, &lines, own, Calls::Any, lines[own].result, budget, 32);
    }
    lines
}

/// Functions that stop, each calling with a falling number.
fn falling(dice: &mut Dice) -> Draft {
    let most = dice.pick(&[1, 2, 3, 6]);
    let count = dice.range(1, most);
    let mut lines = openings(dice, count);
    let mut positions = Vec::new();
    for line in &mut lines {
        let position = dice.below(line.sorts.len());
        line.sorts[position] = Sort::Number;
        positions.push(position);
    }
    let budget = dice.pick(&[4, 8, 12, 20, 40]);
    for own in 0..count {
        lines[own].body = falling_body(dice, &lines, own, &positions, budget);
    }
    let mut args: Vec<u32> = lines[0].sorts.iter().map(|sort| value(dice, *sort)).collect();
    args[positions[0]] = if dice.once_in(8) { dice.below(300) } else { dice.below(14) } as u32;
    Draft { text: write(&lines), args: Some(args) }
}

fn falling_body(dice: &mut Dice, lines: &[Line], own: usize, positions: &[usize], budget: usize) -> Vec<String> {
    let result = lines[own].result;
    // Compared with 2 or more, so that falling by 2 cannot pass 0.
    let mut body = symbols("cond <");
    body.push(argument(positions[own]));
    body.push(dice.pick(&["2", "2", "3", "5"]).to_string());
    body.extend(term(dice, lines, own, Calls::None, result, budget / 2, 30));
    body.extend(term(dice, lines, own, Calls::Falling(positions), result, budget, 30));
    body
}

/// A spine of symbols down to a depth about 32.
fn nested(dice: &mut Dice) -> Draft {
    let mut lines = openings(dice, 2);
    let depth = if dice.once_in(3) { dice.range(2, 31) } else { dice.range(31, 34) };
    for own in 0..2 {
        lines[own].body = spine(dice, &lines, own, lines[own].result, depth);
    }
    Draft { text: write(&lines), args: None }
}

/// A term whose deepest symbol is at `depth`, through one argument of each symbol.
fn spine(dice: &mut Dice, lines: &[Line], own: usize, sort: Sort, depth: usize) -> Vec<String> {
    if depth == 1 {
        return term(dice, lines, own, Calls::None, sort, 1, 1);
    }
    let (symbol, sorts) = spine_symbol(dice, lines, sort);
    let down = if dice.once_in(2) { 0 } else { dice.below(sorts.len()) };
    let mut body = vec![symbol];
    for (position, sort) in sorts.into_iter().enumerate() {
        let depth = if position == down { depth - 1 } else { 1 };
        body.extend(spine(dice, lines, own, sort, depth));
    }
    body
}

fn spine_symbol(dice: &mut Dice, lines: &[Line], sort: Sort) -> (String, Vec<Sort>) {
    use Sort::*;
    let callees: Vec<&Line> = lines.iter().filter(|line| line.result == sort && line.sorts.len() < 5).collect();
    match dice.below(8) {
        0 | 1 => ("cond".to_string(), vec![YesNo, sort, sort]),
        2 if !callees.is_empty() => {
            let callee = dice.pick(&callees);
            (callee.name.clone(), callee.sorts.clone())
        }
        _ if sort == Number => (dice.pick(&["+", "-", "*", "/", "%"]).to_string(), vec![Number, Number]),
        3 => ("=".to_string(), vec![Number, Number]),
        4 => ("<".to_string(), vec![Number, Number]),
        5 => ("!".to_string(), vec![YesNo]),
        _ => (dice.pick(&["&", "|"]).to_string(), vec![YesNo, YesNo]),
    }
}

/// A count down whose calls, and the values pending at each, come near 512.
fn calling(dice: &mut Dice) -> Draft {
    let pending = dice.pick(&[0, 0, 1, 1, 2, 3, 5, 6, 10, 15]);
    let strict = if dice.once_in(4) { 0 } else { 1 };
    let mut body = symbols("cond < a 1");
    body.push(number(dice).to_string());
    for _ in 0..pending {
        body.extend(symbols(dice.pick(&["+ a", "- 7", "+ 1", "cond false 1 + a"])));
        if body.len() > 24 {
            break;
        }
    }
    let held = body.iter().filter(|symbol| matches!(symbol.as_str(), "+" | "-")).count();
    body.extend(symbols("COUNT - a 1"));
    let name = "COUNT".to_string();
    let lines = [Line { name, strict, sorts: vec![Sort::Number], result: Sort::Number, body }];
    // At 510 calls the return stack is 512 high, at 510 values the data stack; a waiting number, walked back, doubles the height.
    let bounds = [510, 510 / held.max(1), 510 / held.max(1), 255, dice.range(2, 510)];
    let count = dice.pick(&bounds) + dice.below(5) - 2;
    let count = if strict == 0 && !dice.once_in(20) { count.min(60) } else { count };
    Draft { text: write(&lines), args: Some(vec![count as u32]) }
}

/// A waiting argument handed down many calls, and looked up at the end or on the way.
fn handing(dice: &mut Dice) -> Draft {
    let body = dice.pick(&[
        "cond < a 1 b HAND - a 1 b",
        "cond < a 1 b + b HAND - a 1 b",
        "cond < a 1 b HAND - a 1 + b 1",
        "cond < a 1 b HAND - a 1 + a b",
        "cond = 0 a 0 cond < b 5 HAND - a 1 + b 1 HAND - a 1 - b a",
        "cond < a 2 b HAND - a 1 HAND / a 2 b",
    ]);
    let entry = dice.pick(&["HAND a b", "HAND a * b b", "HAND a HAND 3 b", "+ HAND a b HAND a - b a"]);
    let strict = dice.pick(&[1, 1, 1, 2, 0]);
    let text = format!("TOP {} nn n {entry};HAND {strict} nn n {body};", dice.below(3));
    let deep = if strict == 0 { 12 } else { dice.pick(&[10, 60, 60, 250]) };
    let down = dice.range(0, deep);
    Draft { text: text_of(&text), args: Some(vec![down as u32, number(dice)]) }
}

/// Functions that never stop, some behind a waiting argument that nobody looks at.
fn looping(dice: &mut Dice) -> Draft {
    let text = dice.pick(&[
        "USE 1 nn n GAP a LOOP b;GAP 1 nn n cond < a 9 a b;LOOP 0 n n LOOP + a 1;",
        "USE 0 nn n GAP a LOOP b;GAP 0 nn n cond < a 9 a b;LOOP 1 n n LOOP + a 1;",
        "L 1 nn n L + a 1 b;",
        "L 0 n n + a L a;",
        "L 1 nn n + L a b L b a;",
        "P 1 nb n cond b Q a b 7;Q 1 nb n P + a 1 cond < a 300 b false;",
        "P 2 nb n cond b + a Q a b 7;Q 0 nb n P + a 1 cond < a 100 b false;",
        "L 0 nn n cond < a 500 L + a 1 b b;",
        "L 1 bb b & L ! a b a;",
        "L 0 n n L L a;",
        "L 1 n n L L a;",
        "L 0 nn n cond = L b a a b L a b;",
        "USE 0 nb n GAP LOOP true a;GAP 1 bn n b;LOOP 1 b b LOOP ! a;",
    ]);
    let fits = |text: &[u8]| text::read(text).map(|functions| functions[0].sorts.clone());
    let text = text_of(text);
    let args = fits(&text).ok().map(|sorts| {
        let small = |dice: &mut Dice, sort| if sort == Sort::YesNo { dice.below(2) as u32 } else { dice.below(12) as u32 };
        sorts.into_iter().map(|sort| small(dice, sort)).collect()
    });
    Draft { text, args }
}

fn many_functions(dice: &mut Dice) -> Draft {
    let count = dice.pick(&[60, 63, 64, 64, 64, 65, 65, 66, 90]);
    let mut lines = openings(dice, count);
    let budget = dice.range(1, 14);
    for own in 0..count {
        lines[own].body = term(dice, &lines, own, Calls::Any, lines[own].result, budget, 32);
    }
    Draft { text: write(&lines), args: None }
}

/// Bodies with 1,024 symbols together, or a few more or fewer.
fn many_symbols(dice: &mut Dice) -> Draft {
    let mut lines = loose_lines(dice);
    let total = dice.pick(&[1020, 1022, 1023, 1024, 1024, 1024, 1025, 1025, 1026, 1100]);
    let used: usize = lines.iter().map(|line| line.body.len()).sum();
    let mut left = total - used;
    for name in names(dice, 60) {
        if left == 0 || lines.len() == 63 {
            break;
        }
        if lines.iter().all(|line| line.name != name) {
            let part = dice.range(1, 400).min(left);
            let body = exactly(dice, part);
            lines.push(Line { name, strict: 1, sorts: vec![Sort::YesNo], result: Sort::YesNo, body });
            left -= part;
        }
    }
    if left > 0 {
        let body = exactly(dice, left);
        lines.push(Line { name: "REST0000".to_string(), strict: 0, sorts: vec![Sort::YesNo], result: Sort::YesNo, body });
    }
    let last = lines.len() - 1;
    let other = dice.below(lines.len());
    lines.swap(other, last);
    Draft { text: write(&lines), args: None }
}

/// A yes/no term of exactly so many symbols, shallow.
fn exactly(dice: &mut Dice, count: usize) -> Vec<String> {
    match count {
        1 => symbols(dice.pick(&["a", "true", "false"])),
        2 => [symbols("!"), exactly(dice, 1)].concat(),
        _ => {
            let left = (count - 1) / 2;
            [symbols(dice.pick(&["&", "|"])), exactly(dice, left), exactly(dice, count - 1 - left)].concat()
        }
    }
}

/// Texts about 16,384 bytes long, at times much longer; none is accepted, so what is judged is which refusal goes first.
fn long(dice: &mut Dice) -> Draft {
    let length = if dice.once_in(12) { dice.range(65500, 66500) } else { dice.range(16380, 16388) };
    let mut text = write(&loose_lines(dice));
    let filler = dice.pick(b"Aa0+n~\t\n ");
    match dice.below(4) {
        0 => {
            text.pop();
            text.push(9);
            text.resize(length - 1, filler);
            text.push(10);
        }
        1 => text.resize(length, filler),
        2 => {
            let line = b"Z\t0\tn\tn\ta\n";
            while text.len() + line.len() <= length {
                text.extend(line);
            }
            text.resize(length, filler);
        }
        _ => {
            let mut padded = vec![filler; length - text.len().min(length)];
            padded.extend(text);
            text = padded;
        }
    }
    Draft { text, args: None }
}

/// Texts at an edge of the document, one after the other; blanks for tabs, `;` for byte 10.
const EDGES: [&str; 80] = [
    "",
    ";",
    ";;",
    " ",
    " ;",
    "X",
    "X;",
    "X 1;",
    "X 1 n;",
    "X 1 n n;",
    "X 1 n n ;",
    "X 1 n n a",
    "X 1 n n a;",
    "X 1 n n a;;",
    "X 1 n n a; ",
    "X 1 n n a;Y",
    "X 2 n n a;",
    "X 2 n q a;",
    "X 2 n;",
    "X 9 n n a;",
    "X 9 nnnnnnnnn n a;",
    "X 8 nnnnnnnn n h;",
    "X 8 nnnnnnnnn n a;",
    "X 8 bbbbbbbb b h;",
    "X 0 bbbbbbbb b h;",
    "X 1 n n i;",
    "X 1 n n b;",
    "X 0 n b a;",
    "X 0 n n a a;",
    "X 0 n n + a;",
    "X 0 n n 4294967295;",
    "X 0 n n 4294967296;",
    "X 0 n n 10000000000;",
    "X 0 n n 00;",
    "X 0 n n 01;",
    "X 0 n n -1;",
    "X 0 n n 0;",
    "X 0 n n +1;",
    "X 0 n n 99999999999999999999;",
    "X 0 n n 18446744073709551617;",
    "ABCDEFGH 0 n n ABCDEFGH a;",
    "ABCDEFGHI 0 n n a;",
    "A1234567 1 n n a;",
    "A12345678 1 n n a;",
    "1A 1 n n a;",
    "aA 1 n n a;",
    "X 1 n n a;X 1 n n a;",
    "X 1 n n a;Y 1 n n zz;X 1 n n a;",
    "X 1 n n a;Y 1 n n;X 1 n n a;",
    "X 0 n n = zz a;",
    "X 0 n n = a a;",
    "X 0 n b = a a;",
    "X 0 b b = a a;",
    "X 0 b n cond a 1 2;",
    "X 0 n n cond a 1 2;",
    "X 0 b n cond a 1 true;",
    "X 0 n n Y a;",
    "X 0 n n Y a;Y 0 n b < a 1;",
    "X 0 n n Y a;Y 0 b n 1;",
    "X 0 n n X X;",
    "X 0 n n true;",
    "X 0 n b True;",
    "X 0 n b TRUE;",
    "X 0 n n cond true cond false 1 2 cond true 3 4;",
    "X 00 n n a;",
    "X 0 n nn a;",
    "X 0 N n a;",
    "X 0 n N a;",
    "X  n n a;",
    "X 0 n n a ;",
    "X 0 n n a zz;",
    "X 0 n n a 4294967296;",
    "X 0 n n zz zz;",
    "X 0 n n +;",
    "X 0 n n + a zz;",
    "X 0 n n + i 1;",
    "X 0 n n X;",
    "X 0 n n Y;",
    "X 0 b n + a 1;",
    "X 0 n b cond 1 true;",
];

fn edges(dice: &mut Dice) -> Draft {
    let text = match dice.below(4) {
        0 => not_chain(dice),
        1 => [text_of(dice.pick(&EDGES)), text_of(dice.pick(&EDGES))].concat(),
        _ => text_of(dice.pick(&EDGES)),
    };
    Draft { text, args: None }
}

/// A chain of `!` about 32 long, with an end that fits or does not.
fn not_chain(dice: &mut Dice) -> Vec<u8> {
    let mut text = "X 0 n b".to_string();
    for _ in 0..dice.range(30, 34) {
        text.push_str(" !");
    }
    text.push_str(dice.pick(&[" true;", " a;", " zz;", ";", " true true;", " = a a;", " < 1;", " |;", " cond true true false;"]));
    text_of(&text)
}

fn spoilt(dice: &mut Dice) -> Draft {
    let makers: [fn(&mut Dice) -> Draft; 6] = [loose, falling, nested, looping, edges, dividing::looked_at];
    let mut draft = if dice.once_in(30) { many_symbols(dice) } else { dice.pick(&makers)(dice) };
    for _ in 0..dice.pick(&[1, 1, 1, 2, 3]) {
        spoil::text(dice, &mut draft.text);
    }
    draft
}

/// Fields and bytes thrown together.
fn scrap(dice: &mut Dice) -> Draft {
    let mut text = Vec::new();
    let length = dice.pick(&[1, 3, 8, 20, 60]);
    for _ in 0..dice.range(0, length) {
        if dice.once_in(12) {
            text.push(dice.throw() as u8);
        } else {
            text.extend(spoil::field(dice));
        }
        text.push(dice.pick(&[9, 9, 9, 9, 9, 9, 10]));
    }
    if dice.below(4) > 0 {
        text.push(10);
    }
    Draft { text, args: None }
}
