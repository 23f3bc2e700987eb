//! The yardstick of the benchmark: a reader, a translator and a machine written for speed alone,
//! over the same twelve words an instruction. Held against the documents before it is timed.

use outside::boundary::*;
use std::mem::MaybeUninit;

const MOST_SYMBOLS: usize = 1024;
/// The initial term has at most nine symbols: behind these places stand the bodies' symbols.
const BODIES: usize = 9;
const MOST_ADDRESSES: usize = BODIES + MOST_SYMBOLS + 1;

type Place = (u32, u32, u32);

/// What a symbol takes and gives.
#[derive(Clone, Copy)]
struct Shape {
    args: u8,
    /// One bit an argument, first one lowest, set for yes/no.
    sorts: u8,
    /// How many arguments are worked out before the symbol itself.
    strict: u8,
    /// 1 for yes/no.
    result: u8,
}

#[derive(Clone, Copy)]
struct Function {
    name: u64,
    shape: Shape,
    /// Index of the first body symbol, and of the one past the last.
    first: u16,
    end: u16,
}

// Tags of a symbol as the scan leaves it. An operation is its number (1 to 10), a constant is 0.
const TRUTH: u8 = 11;
const COND: u8 = 12;
const NAMED: u8 = 13;
const UNLISTED: u8 = 14;
const ARGUMENT: u8 = 16;

/// What follows a symbol, until all entrances are known: a tag above an address.
const SIBLING: u32 = 1 << 16;
const INHERITED: u32 = 2 << 16;

/// One text read; nothing in it is set before it is reached.
struct Program {
    functions: [Function; 65],
    count: usize,
    symbols: usize,
    /// By address: tag, and value, name or callee.
    tags: [u8; MOST_ADDRESSES],
    values: [u64; MOST_ADDRESSES],
    siblings: [u16; MOST_ADDRESSES],
    follows: [u32; MOST_ADDRESSES],
    entrances: [u16; MOST_ADDRESSES + 1],
    /// Names to lines, open addressing; 0 is free.
    table: [u8; 128],
}

pub fn check(text: &[u8], heads: &mut [Head]) -> Checked {
    let mut program = MaybeUninit::<Program>::uninit();
    unsafe {
        let program = &mut *program.as_mut_ptr();
        if let Err(place) = program.read(text) {
            return refused(place);
        }
        if heads.len() < program.count {
            return refused((ROOM, 0, 0));
        }
        let shift = program.shift() as u32;
        for (head, function) in heads.iter_mut().zip(&program.functions[..program.count]) {
            let Shape { args, strict, result, .. } = function.shape;
            let body = function.first as u32 + shift;
            *head = Head { args: args as u32, strict: strict as u32, result: result as u32, body };
        }
        program.accepted()
    }
}

pub fn translate(text: &[u8], code: &mut [u32]) -> Checked {
    let mut program = MaybeUninit::<Program>::uninit();
    unsafe {
        let program = &mut *program.as_mut_ptr();
        if let Err(place) = program.read(text) {
            return refused(place);
        }
        if code.len() < INSTRUCTION_WORDS * program.instructions() {
            return refused((ROOM, 0, 0));
        }
        program.emit(code.as_mut_ptr());
        program.accepted()
    }
}

pub fn run(text: &[u8], args: &[u32], limit: u32, code: &mut [u32], work: &mut [u32]) -> Answer {
    let mut program = MaybeUninit::<Program>::uninit();
    unsafe {
        let program = &mut *program.as_mut_ptr();
        if let Err(place) = program.read(text) {
            return not_run(place);
        }
        let entry = program.functions[0].shape;
        let above_one = |position: usize| entry.sorts >> position & 1 == 1 && args[position] > 1;
        if args.len() != entry.args as usize || (0..args.len()).any(above_one) {
            return not_run((ARGS, 0, 0));
        }
        if code.len() < INSTRUCTION_WORDS * program.instructions() || work.len() < WORK_WORDS {
            return not_run((ROOM, 0, 0));
        }
        program.emit(code.as_mut_ptr());
        let answer = execute(code.as_ptr(), program.entrances[0] as usize, args, limit, work.as_mut_ptr());
        std::ptr::write_bytes(work.as_mut_ptr(), 0, WORK_WORDS);
        answer
    }
}

fn refused((number, line, field): Place) -> Checked {
    Checked { number, line, field, ..Checked::default() }
}

fn not_run((number, line, field): Place) -> Answer {
    Answer { number, line, field, ..Answer::default() }
}

// Reading

const fn each(byte: u64) -> u64 {
    byte * 0x0101_0101_0101_0101
}

/// A word of up to eight bytes, first byte lowest.
const fn word(bytes: &[u8]) -> u64 {
    let (mut word, mut index) = (0, bytes.len());
    while index > 0 {
        index -= 1;
        word = word << 8 | bytes[index] as u64;
    }
    word
}

/// The shape of each symbol whose tag is below COND.
const SHAPES: [Shape; 12] = {
    const fn shape(args: u8, sorts: u8, result: u8) -> Shape {
        Shape { args, sorts, strict: args, result }
    }
    let (constant, truth) = (shape(0, 0, 0), shape(0, 0, 1));
    let (number, compared, joined, not) = (shape(2, 0, 0), shape(2, 0, 1), shape(2, 3, 1), shape(1, 1, 1));
    [constant, number, number, number, number, number, compared, compared, joined, joined, not, truth]
};

/// The tag of each one-byte symbol.
const SINGLE: [u8; 128] = {
    let mut tags = [UNLISTED; 128];
    let operations = *b"+-*/%=<&|!";
    let mut index = 0;
    while index < operations.len() {
        tags[operations[index] as usize] = index as u8 + 1;
        index += 1;
    }
    let mut letter = 0;
    while letter < 26 {
        tags[b'A' as usize + letter] = NAMED;
        if letter < 8 {
            tags[b'a' as usize + letter] = ARGUMENT + letter as u8;
        }
        if letter < 10 {
            tags[b'0' as usize + letter] = 0;
        }
        letter += 1;
    }
    tags
};

/// The field at `at`: its first bytes as a word, and its length up to the first byte outside 33 to 126.
/// The text holds such a byte at or after `at`.
#[inline(always)]
unsafe fn field(text: &[u8], at: usize) -> (u64, usize) {
    if at + 8 <= text.len() {
        let word = (text.as_ptr().add(at) as *const u64).read_unaligned();
        let below_33 = word.wrapping_sub(each(33)) & !word;
        let above_126 = word.wrapping_add(each(1)) | word;
        let stops = (below_33 | above_126) & each(0x80);
        if stops != 0 {
            let len = stops.trailing_zeros() as usize / 8;
            return (word & !(u64::MAX << (8 * len)), len);
        }
    }
    long_field(text, at)
}

/// As `field`, for fields that mostly have one byte: a guess that is right does not wait for the length.
#[inline(always)]
unsafe fn short_field(text: &[u8], at: usize) -> (u64, usize) {
    let first = *text.get_unchecked(at);
    if (33..=126).contains(&first) && matches!(*text.get_unchecked(at + 1), 9 | 10) {
        return (first as u64, 1);
    }
    field(text, at)
}

#[cold]
#[inline(never)]
fn long_field(text: &[u8], at: usize) -> (u64, usize) {
    let len = text[at..].iter().position(|byte| !(33..=126).contains(byte)).unwrap();
    (word(&text[at..at + len.min(8)]), len)
}

/// Every byte a capital or a digit, the first a capital; the word holds 1 to 8 bytes.
#[inline(always)]
fn is_name(mut word: u64) -> bool {
    if !(word as u8).is_ascii_uppercase() {
        return false;
    }
    while word > 0xFF {
        word >>= 8;
        let byte = word as u8;
        if !byte.is_ascii_uppercase() && !byte.is_ascii_digit() {
            return false;
        }
    }
    true
}

#[inline(always)]
unsafe fn tag_of(text: &[u8], at: usize, bytes: u64, len: usize) -> (u8, u64) {
    if len == 1 {
        let tag = *SINGLE.get_unchecked(bytes as usize);
        return (tag, if tag == NAMED { bytes } else { bytes.wrapping_sub(b'0' as u64) });
    }
    let first = bytes as u8;
    if first.is_ascii_digit() {
        return decimal(text, at, len);
    }
    match bytes {
        _ if first.is_ascii_uppercase() => (if len <= 8 { NAMED } else { UNLISTED }, bytes),
        COND_WORD if len == 4 => (COND, 0),
        TRUE_WORD if len == 4 => (TRUTH, 1),
        FALSE_WORD if len == 5 => (TRUTH, 0),
        _ => (UNLISTED, 0),
    }
}

const COND_WORD: u64 = word(b"cond");
const TRUE_WORD: u64 = word(b"true");
const FALSE_WORD: u64 = word(b"false");

#[inline(always)]
unsafe fn decimal(text: &[u8], at: usize, len: usize) -> (u8, u64) {
    let mut value = 0u64;
    if len > 10 || *text.get_unchecked(at) == b'0' {
        return (UNLISTED, 0);
    }
    for index in at..at + len {
        let digit = text.get_unchecked(index).wrapping_sub(b'0');
        if digit > 9 {
            return (UNLISTED, 0);
        }
        value = 10 * value + digit as u64;
    }
    (if value <= u32::MAX as u64 { 0 } else { UNLISTED }, value)
}

/// Fields 1 to 4 of a line that has at least five; goes on to the fifth.
#[inline(always)]
unsafe fn opening(text: &[u8], at: &mut usize, line: u32) -> Result<Function, Place> {
    let mut fields = [(0, 0); 4];
    for index in 0..4 {
        let (bytes, len) = field(text, *at);
        let form = match index {
            0 => len <= 8 && is_name(bytes),
            1 => len == 1 && (bytes as u8).wrapping_sub(b'0') <= 8,
            2 => len <= 8 && is_sorts(bytes, len) && (fields[1].0 as u8 - b'0') as usize <= len,
            _ => len == 1 && is_sorts(bytes, len),
        };
        let stop = *text.get_unchecked(*at + len);
        if len == 0 || !form || (stop != 9 && stop != 10) {
            return Err((LINE, line, index as u32 + 1));
        }
        if stop == 10 {
            return Err((LINE, line, index as u32 + 2));
        }
        fields[index] = (bytes, len);
        *at += len + 1;
    }
    let [(name, _), (strict, _), (sorts, args), (result, _)] = fields;
    let shape = Shape {
        args: args as u8,
        // Bit 2 of `n` is set, of `b` it is not.
        sorts: !gather_bit_2(sorts) & (0xFFu16 >> (8 - args)) as u8,
        strict: strict as u8 - b'0',
        result: (result as u8 == b'b') as u8,
    };
    Ok(Function { name, shape, first: 0, end: 0 })
}

impl Program {
    fn instructions(&self) -> usize {
        self.shift() + self.symbols + 1
    }

    /// How many addresses the initial term takes.
    fn shift(&self) -> usize {
        1 + self.functions[0].shape.args as usize
    }

    fn accepted(&self) -> Checked {
        Checked { functions: self.count as u32, instructions: self.instructions() as u32, ..Checked::default() }
    }

    unsafe fn read(&mut self, text: &[u8]) -> Result<(), Place> {
        if text.len() > 16384 {
            return Err((LONG, 0, 0));
        }
        if text.is_empty() {
            return Err((LINE, 1, 1));
        }
        self.scan(text)?;
        self.enter_names()?;
        self.place_initial_term();
        for index in 0..self.count {
            self.body(index).map_err(|(number, field)| (number, index as u32 + 1, field))?;
        }
        Ok(())
    }

    /// LINE and COUNT; symbols are tagged on the way.
    #[inline(always)]
    unsafe fn scan(&mut self, text: &[u8]) -> Result<(), Place> {
        let ended = text.iter().rposition(|byte| *byte == 10).map_or(0, |last| last + 1);
        let (mut at, mut line) = (0, 0);
        let mut too_many = None;
        self.symbols = 0;
        while at < ended {
            line += 1;
            let mut function = opening(text, &mut at, line)?;
            function.first = self.symbols as u16;
            self.scan_body(text, &mut at, line, &mut too_many)?;
            function.end = self.symbols as u16;
            *self.functions.get_unchecked_mut((line as usize - 1).min(64)) = function;
        }
        if ended < text.len() {
            return Err((LINE, line + 1, 0));
        }
        self.count = line as usize;
        match too_many {
            _ if line > 64 => Err((COUNT, 65, 0)),
            Some(place) => Err(place),
            None => Ok(()),
        }
    }

    /// Fields from 5 to the end of a line.
    #[inline(always)]
    unsafe fn scan_body(&mut self, text: &[u8], at: &mut usize, line: u32, too_many: &mut Option<Place>) -> Result<(), Place> {
        let (mut start, mut symbols, mut number) = (*at, self.symbols, 5);
        loop {
            let (bytes, len) = short_field(text, start);
            let stop = *text.get_unchecked(start + len);
            if len == 0 || (stop != 9 && stop != 10) {
                return Err((LINE, line, number));
            }
            if symbols < MOST_SYMBOLS {
                let (tag, value) = tag_of(text, start, bytes, len);
                *self.tags.get_unchecked_mut(symbols + BODIES) = tag;
                *self.values.get_unchecked_mut(symbols + BODIES) = value;
            } else if symbols == MOST_SYMBOLS {
                *too_many = Some((COUNT, line, number));
            }
            symbols += 1;
            start += len + 1;
            number += 1;
            if stop == 10 {
                break;
            }
        }
        (*at, self.symbols) = (start, symbols);
        Ok(())
    }

    /// NAME, and the table of names.
    unsafe fn enter_names(&mut self) -> Result<(), Place> {
        self.table = [0; 128];
        for index in 0..self.count {
            match self.slot_of(self.functions.get_unchecked(index).name) {
                (slot, 0) => *self.table.get_unchecked_mut(slot) = index as u8 + 1,
                _ => return Err((NAME, index as u32 + 1, 1)),
            }
        }
        Ok(())
    }

    /// The slot that holds a name, with its line, or the free slot for it and 0.
    #[inline(always)]
    unsafe fn slot_of(&self, name: u64) -> (usize, u8) {
        let mut slot = (name.wrapping_mul(0x9E37_79B9_7F4A_7C15) >> 57) as usize;
        loop {
            let line = *self.table.get_unchecked(slot);
            if line == 0 || self.functions.get_unchecked(line as usize - 1).name == name {
                return (slot, line);
            }
            slot = (slot + 1) % 128;
        }
    }

    /// Where the arrays hold the symbol of an address; an initial term of fewer than nine symbols moves up to the bodies.
    #[inline(always)]
    fn at(&self, address: usize) -> usize {
        address + BODIES - self.shift()
    }

    unsafe fn place_initial_term(&mut self) {
        let shift = self.shift();
        let strict = self.functions[0].shape.strict;
        let ret = (self.instructions() - 1) as u32;
        let start = self.at(0);
        self.tags[start] = NAMED;
        self.values[start] = 0;
        self.follows[start] = ret;
        for child in 1..shift {
            let place = self.at(child);
            self.tags[place] = ARGUMENT + child as u8 - 1;
            self.siblings[place] = child as u16 + 1;
            self.follows[place] = match child.cmp(&(strict as usize)) {
                std::cmp::Ordering::Less => SIBLING,
                std::cmp::Ordering::Equal => 0,
                std::cmp::Ordering::Greater => ret,
            };
        }
    }

    /// TERM, NEST, UNKNOWN, SORT and SHORT of one body; resolves names and finds what follows each symbol.
    #[inline(always)]
    unsafe fn body(&mut self, index: usize) -> Result<(), (u32, u32)> {
        #[derive(Clone, Copy)]
        struct Open {
            /// Sorts of the arguments still to come, next one lowest.
            sorts: u8,
            left: u8,
            /// How many of those are worked out before the symbol itself.
            before: u8,
            cond: bool,
            address: u16,
            child: u16,
        }
        let own = *self.functions.get_unchecked(index);
        let shift = self.shift();
        let ret = (self.instructions() - 1) as u32;
        let mut open = [MaybeUninit::<Open>::uninit(); 33];
        let mut depth = 0;
        let mut address = own.first as usize + shift;
        let end = own.end as usize + shift;
        let mut want = own.shape.result;
        let mut follow = ret;
        loop {
            let number = (address - own.first as usize - shift) as u32 + 5;
            if address == end {
                return Err((SHORT, number));
            }
            if depth == 32 {
                return Err((NEST, number));
            }
            let place = address + BODIES - shift;
            let tag = *self.tags.get_unchecked(place);
            *self.follows.get_unchecked_mut(place) = follow;
            let shape = if tag < COND {
                *SHAPES.get_unchecked(tag as usize)
            } else if tag >= ARGUMENT {
                if tag - ARGUMENT >= own.shape.args {
                    return Err((UNKNOWN, number));
                }
                Shape { args: 0, sorts: 0, strict: 0, result: own.shape.sorts >> (tag - ARGUMENT) & 1 }
            } else if tag == COND {
                Shape { args: 3, sorts: 1 | want << 1 | want << 2, strict: 1, result: want }
            } else {
                let (_, line) = self.slot_of(*self.values.get_unchecked(place));
                if tag == UNLISTED || line == 0 {
                    return Err((UNKNOWN, number));
                }
                *self.values.get_unchecked_mut(place) = line as u64 - 1;
                self.functions.get_unchecked(line as usize - 1).shape
            };
            if shape.result != want {
                return Err((SORT, number));
            }
            if shape.args > 0 {
                let child = address as u16 + 1;
                let Shape { args: left, sorts, strict: before, .. } = shape;
                let parent = Open { sorts, left, before, cond: tag == COND, address: address as u16, child };
                *open.get_unchecked_mut(depth) = MaybeUninit::new(parent);
                depth += 1;
            } else {
                while depth > 0 && open.get_unchecked(depth - 1).assume_init_ref().left == 0 {
                    depth -= 1;
                }
                if depth == 0 {
                    break;
                }
            }
            address += 1;
            let parent = open.get_unchecked_mut(depth - 1).assume_init_mut();
            *self.siblings.get_unchecked_mut(parent.child as usize + BODIES - shift) = address as u16;
            parent.child = address as u16;
            want = parent.sorts & 1;
            follow = match parent.before {
                1 => parent.address as u32,
                0 if parent.cond => INHERITED | parent.address as u32,
                0 => ret,
                _ => SIBLING,
            };
            parent.sorts >>= 1;
            parent.left -= 1;
            parent.before = parent.before.saturating_sub(1);
        }
        if address + 1 < end {
            return Err((TERM, (address + 1 - own.first as usize - shift) as u32 + 5));
        }
        Ok(())
    }

    /// Entrances from the last symbol to the first, then one instruction a symbol.
    #[inline(always)]
    unsafe fn emit(&mut self, code: *mut u32) {
        let shift = self.shift();
        let ret = self.instructions() - 1;
        let base = BODIES - shift;
        let mut entrance = ret as u16;
        for address in (0..ret).rev() {
            let tag = *self.tags.get_unchecked(address + base);
            let own = match tag {
                0 | TRUTH | ARGUMENT.. => true,
                NAMED => self.functions.get_unchecked(*self.values.get_unchecked(address + base) as usize).shape.strict == 0,
                _ => false,
            };
            entrance = if own { address as u16 } else { entrance };
            *self.entrances.get_unchecked_mut(address) = entrance;
        }
        for address in 0..ret {
            let place = address + base;
            let follow = *self.follows.get_unchecked(place);
            let next = match follow >> 16 {
                0 => follow,
                1 => *self.entrances.get_unchecked(*self.siblings.get_unchecked(place) as usize) as u32,
                _ => *self.follows.get_unchecked((follow & 0xFFFF) as usize + base),
            };
            *self.follows.get_unchecked_mut(place) = next;
            let out = code.add(INSTRUCTION_WORDS * address) as *mut [u32; INSTRUCTION_WORDS];
            let tag = *self.tags.get_unchecked(place);
            *out = match tag {
                ARGUMENT.. => [1, next, (tag - ARGUMENT) as u32 + 1, 0, 0, 0, 0, 0, 0, 0, 0, 0],
                0 | TRUTH => [2, next, 0, *self.values.get_unchecked(place) as u32, 0, 0, 0, 0, 0, 0, 0, 0],
                COND => {
                    let yes = *self.siblings.get_unchecked(place + 1) as usize;
                    let no = *self.siblings.get_unchecked(yes + base) as usize;
                    let (yes, no) = (*self.entrances.get_unchecked(yes), *self.entrances.get_unchecked(no));
                    [3, 0, yes as u32, no as u32, 0, 0, 0, 0, 0, 0, 0, 0]
                }
                NAMED => self.call(address, next, base),
                _ => [2, next, tag as u32, 0, 0, 0, 0, 0, 0, 0, 0, 0],
            };
        }
        let out = code.add(INSTRUCTION_WORDS * ret) as *mut [u32; INSTRUCTION_WORDS];
        *out = [5, 0, 0, 0, 0, 0, 0, 0, 0, 0, 0, 0];
    }

    #[inline(always)]
    unsafe fn call(&self, address: usize, next: u32, base: usize) -> [u32; INSTRUCTION_WORDS] {
        let callee = self.functions.get_unchecked(*self.values.get_unchecked(address + base) as usize);
        let Shape { args, strict, .. } = callee.shape;
        let body = *self.entrances.get_unchecked(callee.first as usize + self.shift()) as u32;
        let mut words = [4, next, body, strict as u32, 0, 0, 0, 0, 0, 0, 0, 0];
        if strict < args {
            let mut child = address + 1;
            for position in 0..args {
                if position >= strict {
                    *words.get_unchecked_mut(4 + (position - strict) as usize) = *self.entrances.get_unchecked(child) as u32;
                }
                child = *self.siblings.get_unchecked(child + base) as usize;
            }
        }
        words
    }
}

#[inline(always)]
fn is_sorts(mut bytes: u64, len: usize) -> bool {
    for _ in 0..len {
        let letter = bytes as u8;
        if letter != b'n' && letter != b'b' {
            return false;
        }
        bytes >>= 8;
    }
    true
}

/// Bit 2 of each of eight bytes, first byte lowest.
#[inline(always)]
fn gather_bit_2(bytes: u64) -> u8 {
    ((bytes >> 2 & each(1)).wrapping_mul(0x0102_0408_1020_4080) >> 56) as u8
}

// The machine

/// Data words come first, one more than the stack is high: the top of the stack is kept apart and stored above the others
/// when a value is pushed. Then a level of 12 words for each return entry: return address, environment to go back to and,
/// where a call made it, its frame: link, strict count, entries.
const DATA: usize = 513;
const LEVEL: usize = 12;
const LINK: usize = 2;
const STRICT: usize = 3;
const ENTRIES: usize = 4;
const LEVELS_END: usize = DATA + 512 * LEVEL;

/// Levels and frames are word offsets into `work`, `height` is the data stack's height.
#[inline(never)]
unsafe fn execute(code: *const u32, start: usize, args: &[u32], limit: u32, work: *mut u32) -> Answer {
    let instruction = |address: u32| code.add(INSTRUCTION_WORDS * address as usize);
    let mut at = instruction(start as u32);
    let (mut height, mut top) = (0usize, 0u32);
    let (mut level, mut frame) = (DATA + LEVEL, DATA);
    let (mut left, mut rewrites) = (limit, 0u32);
    *work.add(frame + STRICT) = args.len() as u32;
    for (position, value) in args.iter().enumerate() {
        *work.add(frame + ENTRIES + position) = *value;
    }
    macro_rules! push {
        ($value:expr) => {{
            let value = $value;
            if height == 512 {
                break DEEP;
            }
            *work.add(height) = top;
            height += 1;
            top = value;
        }};
    }
    macro_rules! operate {
        ($x:ident, $y:ident, $result:expr) => {{
            let $y = top;
            height -= 1;
            let $x = *work.add(height);
            top = $result;
            rewrites += 1;
            at = instruction(*at.add(1));
        }};
    }
    macro_rules! divide {
        ($x:ident, $y:ident, $result:expr) => {{
            if top == 0 {
                break ZERO;
            }
            operate!($x, $y, $result);
        }};
    }
    let number = loop {
        if left == 0 {
            break FUEL;
        }
        // One dispatch for kinds and operations: 1, 3, 4, 5, and from 8 on the operation of an EXEC.
        let kind = *at;
        let operation = *at.add(2);
        match if kind == 2 { 8 + operation } else { kind } {
            1 => {
                let entry = *work.add(frame + ENTRIES - 1 + operation as usize);
                if operation <= *work.add(frame + STRICT) {
                    push!(entry);
                    at = instruction(*at.add(1));
                } else {
                    if level == LEVELS_END {
                        break DEEP;
                    }
                    *work.add(level) = *at.add(1);
                    *work.add(level + 1) = frame as u32;
                    level += LEVEL;
                    frame = *work.add(frame + LINK) as usize;
                    at = instruction(entry);
                }
            }
            3 => {
                let branch = *at.add(3 - (top & 1) as usize);
                height -= 1;
                top = *work.add(height);
                rewrites += 1;
                at = instruction(branch);
            }
            4 => {
                if level == LEVELS_END {
                    break DEEP;
                }
                let strict = *at.add(3) as usize;
                *work.add(height) = top;
                height -= strict;
                top = *work.add(height);
                let (values, entries) = (work.add(height + 1), work.add(level + ENTRIES));
                *work.add(level) = *at.add(1);
                *work.add(level + 1) = frame as u32;
                *work.add(level + LINK) = frame as u32;
                *work.add(level + STRICT) = strict as u32;
                // Two values at once and eight entrances at once: what is too much lies in the free level above.
                let two = [*values, *values.add(1)];
                *(entries as *mut [u32; 2]) = two;
                for position in 2..strict {
                    *entries.add(position) = *values.add(position);
                }
                *(entries.add(strict) as *mut [u32; 8]) = *(at.add(4) as *const [u32; 8]);
                frame = level;
                level += LEVEL;
                rewrites += 1;
                at = instruction(operation);
            }
            5 => {
                level -= LEVEL;
                if level == DATA {
                    left -= 1;
                    break HALT;
                }
                frame = *work.add(level + 1) as usize;
                at = instruction(*work.add(level));
            }
            8 => {
                push!(*at.add(3));
                rewrites += 1;
                at = instruction(*at.add(1));
            }
            9 => operate!(x, y, x.wrapping_add(y)),
            10 => operate!(x, y, x.wrapping_sub(y)),
            11 => operate!(x, y, x.wrapping_mul(y)),
            12 => divide!(x, y, x / y),
            13 => divide!(x, y, x % y),
            14 => operate!(x, y, (x == y) as u32),
            15 => operate!(x, y, (x < y) as u32),
            16 => operate!(x, y, x & y),
            17 => operate!(x, y, x | y),
            18 => {
                top ^= 1;
                rewrites += 1;
                at = instruction(*at.add(1));
            }
            _ => std::hint::unreachable_unchecked(),
        }
        left -= 1;
    };
    let value = if number == HALT { top } else { 0 };
    Answer { number, value, line: 0, field: 0, steps: limit - left, rewrites }
}
