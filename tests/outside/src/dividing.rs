//! Texts that divide by 0: before a call, behind a waiting argument, where nobody looks, and with stacks about 512 high.

use crate::dice::Dice;
use crate::families::Draft;
use crate::writer::{number, text_of};

/// The second argument is mostly 0.
const LOOKED_AT: [&str; 20] = [
    "DIV 2 nn n / a b;",
    "DIV 0 nn n / a b;",
    "E 2 nn n F a / a b;F 2 nn n cond < a 9 a b;",
    "E 2 nn n F a / a b;F 1 nn n cond < a 9 a b;",
    "E 0 nn n F a / a b;F 0 nn n cond < a 9 a b;",
    "E 0 nn n + / a b / b a;",
    "E 2 nn n - / a b * 3 4;",
    "E 1 nn b & < a 3 = 0 / a b;",
    "E 1 nn b | < a 3 ! = 0 / a b;",
    "E 2 nn n cond = b 0 a / a b;",
    "E 2 nn n cond < / a b 3 a b;",
    "E 1 nn n / a - b b;",
    "E 1 nn n / / a b 0;",
    "TOP 1 nn n HAND a / 7 b;HAND 1 nn n cond < a 1 b HAND - a 1 b;",
    "TOP 1 nn n HAND a b;HAND 1 nn n cond < a 1 / 7 b + b HAND - a 1 b;",
    "TOP 0 nn n HAND a b;HAND 0 nn n cond < a 1 b HAND / a b / b a;",
    "D 2 nn n cond = a 12 / a - a 12 D + a 1 b;",
    "E 2 nn n F / a b a;F 2 nn n F b a;",
    "E 2 nn n F a / a b;F 1 nn n F + a 1 b;",
    "E 2 nn n + F a b / a b;F 2 nn n F b a;",
];

/// For a first argument below 9 the division is never looked at.
const PASSED_OVER: [&str; 7] = [
    "E 1 nn n F a / 7 0;F 1 nn n cond < a 9 a b;",
    "E 0 nn n F a / b 0;F 0 nn n a;",
    "E 2 nn n cond < a 9 + a b / a 0;",
    "E 0 nn b cond ! < a 9 = / b 0 1 < a b;",
    "TOP 1 nn n HAND a / b 0;HAND 1 nn n cond < a 1 7 HAND - a 1 b;",
    "TOP 0 nn n HAND a / b - a a;HAND 0 nn n cond < a 1 7 HAND - a 1 + b 1;",
    "TOP 2 nn n + LEFT a / a 0 LEFT b / b 0;LEFT 1 nn n a;",
];

pub fn looked_at(dice: &mut Dice) -> Draft {
    match dice.below(8) {
        0 => pending(dice),
        1 => at_the_bottom(dice),
        _ => {
            let second = if dice.once_in(4) { number(dice) } else { 0 };
            either(dice, &LOOKED_AT, second)
        }
    }
}

pub fn passed_over(dice: &mut Dice) -> Draft {
    let second = number(dice);
    either(dice, &PASSED_OVER, second)
}

/// One of the texts, by `/` or by `%`; the first argument is small.
fn either(dice: &mut Dice, texts: &[&str], second: u32) -> Draft {
    let text = dice.pick(texts).replace('/', dice.pick(&["/", "%"]));
    let first = dice.below(9) as u32;
    Draft { text: text_of(&text), args: Some(vec![first, second]) }
}

/// Values pile up without a rewrite: each call hands on its first argument, and pending additions as its second.
fn pending(dice: &mut Dice) -> Draft {
    let calls = dice.pick(&[1, 2, 3, 5, 8, 15, 20]);
    let most = dice.pick(&[3, 29]);
    let mut spine = |last: &str| format!("{}{last}", "+ a ".repeat(dice.range(0, most)));
    let mut text = format!("F0 0 nn n F1 a {};", spine("/ a b"));
    for index in 1..calls {
        text += &format!("F{index} 0 nn n F{} a {};", index + 1, spine("b"));
    }
    text += &format!("F{calls} 0 nn n {};", spine("b"));
    Draft { text: text_of(&text), args: Some(vec![5, 0]) }
}

/// A count down with a division by 0 at its end, where a stack is about 512 high.
fn at_the_bottom(dice: &mut Dice) -> Draft {
    let (body, most) = dice.pick(&[
        ("cond < a 1 / 7 a + 1 COUNT - a 1", 510),
        ("cond < a 1 / 7 a + COUNT - a 1 1", 510),
        ("cond < a 1 + 1 / 7 a + 1 + a COUNT - a 1", 255),
    ]);
    let text = format!("COUNT 1 n n {body};").replace('/', dice.pick(&["/", "%"]));
    Draft { text: text_of(&text), args: Some(vec![(most + dice.below(7) - 4) as u32]) }
}
