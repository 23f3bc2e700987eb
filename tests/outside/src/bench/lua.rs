//! Rules as Lua functions: strict arguments are values, waiting ones closures. Yes/no are Lua's true and false.

use outside::spec::text::{self, Function, Operation, Sort, Symbol, Term};
use std::io::Write;
use std::process::{Command, Stdio};

/// What one Lua process measured.
pub struct Measured {
    pub value: u32,
    /// Loading the source and calling it, and calling it once loaded; nanoseconds of CPU time.
    pub load_and_call: f64,
    pub call: f64,
}

/// None where there is no Lua 5.4.
pub fn measure(text: &[u8], args: &[u32]) -> Option<Measured> {
    let mut lua = Command::new("lua5.4").arg("-").stdin(Stdio::piped()).stdout(Stdio::piped()).spawn().ok()?;
    lua.stdin.take()?.write_all(script(text, args).as_bytes()).ok()?;
    let output = lua.wait_with_output().ok()?;
    let printed = String::from_utf8(output.stdout).ok()?;
    let words: Vec<&str> = printed.split_whitespace().collect();
    let [value, load_and_call, call] = words[..] else { panic!("Lua prints {printed:?}") };
    Some(Measured { value: value.parse().ok()?, load_and_call: load_and_call.parse().ok()?, call: call.parse().ok()? })
}

fn script(text: &[u8], args: &[u32]) -> String {
    let functions = text::read(text).expect("an accepted text");
    let values: Vec<String> = args.iter().map(u32::to_string).collect();
    let values = values.join(", ");
    format!(
        "local source = [==[\n{}]==]
local function measure(f)
  local count = 1
  while true do
    local start = os.clock()
    for _ = 1, count do f() end
    local taken = os.clock() - start
    if taken > 0.015 then return taken / count * 1e9 end
    count = count * 2
  end
end
local rule = load(source)()
local value = rule({values})
if value == true then value = 1 elseif value == false then value = 0 end
print(value, measure(function() return load(source)()({values}) end), measure(function() return rule({values}) end))
",
        source(&functions)
    )
}

/// A chunk that returns a function of the entry's argument values.
fn source(functions: &[Function]) -> String {
    let names: Vec<String> = (0..functions.len()).map(name).collect();
    let mut source = "local function both(x, y) return x and y end\nlocal function either(x, y) return x or y end\n".to_string();
    source += &format!("local {}\n", names.join(", "));
    for (index, function) in functions.iter().enumerate() {
        let parameters: Vec<String> = (0..function.sorts.len()).map(parameter).collect();
        let writer = Writer { functions, own: function };
        source += &format!("function {}({}) {} end\n", name(index), parameters.join(", "), writer.answer(&function.body));
    }
    source += &entry(&functions[0]);
    source
}

fn entry(function: &Function) -> String {
    let parameters: Vec<String> = (0..function.sorts.len()).map(parameter).collect();
    let handed = |position: usize| match position < function.strict {
        true => parameter(position),
        false => format!("function() return {} end", parameter(position)),
    };
    let handed: Vec<String> = (0..function.sorts.len()).map(handed).collect();
    format!("return function({}) return {}({}) end\n", parameters.join(", "), name(0), handed.join(", "))
}

fn name(index: usize) -> String {
    format!("F{index}")
}

fn parameter(position: usize) -> String {
    ((b'a' + position as u8) as char).to_string()
}

struct Writer<'a> {
    functions: &'a [Function],
    own: &'a Function,
}

impl Writer<'_> {
    /// A statement that returns the term's value.
    fn answer(&self, term: &Term) -> String {
        match (term.symbol, &term.arguments[..]) {
            (Symbol::Cond, [condition, yes, no]) => {
                format!("if {} then {} else {} end", self.value(condition), self.answer(yes), self.answer(no))
            }
            _ => format!("return {}", self.value(term)),
        }
    }

    fn value(&self, term: &Term) -> String {
        let arguments = || term.arguments.iter().map(|argument| self.value(argument)).collect::<Vec<String>>();
        match term.symbol {
            Symbol::Argument(position) if position < self.own.strict => parameter(position),
            Symbol::Argument(position) => format!("{}()", parameter(position)),
            Symbol::Constant(value, Sort::Number) => value.to_string(),
            Symbol::Constant(value, Sort::YesNo) => (value == 1).to_string(),
            Symbol::Operation(operation) => operate(operation, &arguments()),
            Symbol::Cond => format!("(function() {} end)()", self.answer(term)),
            Symbol::Call(callee) => self.call(callee, &term.arguments),
        }
    }

    fn call(&self, callee: usize, arguments: &[Term]) -> String {
        let strict = self.functions[callee].strict;
        let handed = |(position, argument): (usize, &Term)| match position < strict {
            true => self.value(argument),
            false => format!("function() {} end", self.answer(argument)),
        };
        let handed: Vec<String> = arguments.iter().enumerate().map(handed).collect();
        format!("{}({})", name(callee), handed.join(", "))
    }
}

fn operate(operation: Operation, values: &[String]) -> String {
    use Operation::*;
    let x = &values[0];
    let y = values.get(1).map_or("", String::as_str);
    match operation {
        Add => format!("(({x} + {y}) & 0xffffffff)"),
        Subtract => format!("(({x} - {y}) & 0xffffffff)"),
        Multiply => format!("(({x} * {y}) & 0xffffffff)"),
        // A divisor of 0 is an error there, too.
        Divide => format!("({x} // {y})"),
        Remainder => format!("({x} % {y})"),
        Equal => format!("({x} == {y})"),
        Less => format!("({x} < {y})"),
        And => format!("both({x}, {y})"),
        Or => format!("either({x}, {y})"),
        Not => format!("(not {x})"),
    }
}
