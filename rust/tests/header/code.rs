//! The numbers of the proved code, read from the sources of the crates that have them: their constants, and what their
//! functions answer for the cases of an enum.

use std::collections::BTreeMap;
use std::fs;
use std::path::Path;

/// The crates with numbers for boards.
const WITH_NUMBERS: [&str; 2] = ["meaning", "text_assemble"];

/// The sources, without comments.
pub struct Code {
    text: String,
    /// What stands behind each constant's `=`.
    expressions: BTreeMap<String, String>,
}

impl Code {
    pub fn read() -> Code {
        let mut text = String::new();
        for name in WITH_NUMBERS {
            let folder =
                Path::new(env!("CARGO_MANIFEST_DIR")).join(format!("../crates/{name}/src"));
            for entry in fs::read_dir(&folder).expect("the sources of a crate") {
                let path = entry.expect("an entry can be read").path();
                text += &fs::read_to_string(&path).expect("a source can be read");
            }
        }
        Code::of(&text)
    }

    /// The code of this text.
    pub fn of(text: &str) -> Code {
        let lines = text
            .lines()
            .map(|line| line.split("//").next().unwrap_or(line));
        let text: String = lines.flat_map(|line| [line, "\n"]).collect();
        let expressions = constants_in(&text);
        Code { text, expressions }
    }

    /// Each constant with its value.
    pub fn constants(&self) -> BTreeMap<String, u64> {
        let names = self.expressions.keys();
        names
            .map(|name| (name.clone(), self.constant(name)))
            .collect()
    }

    fn constant(&self, name: &str) -> u64 {
        let expression = self.expressions.get(name);
        self.value(expression.unwrap_or_else(|| panic!("no constant is called {name}")))
    }

    /// The value of an expression.
    pub fn value(&self, expression: &str) -> u64 {
        let mut reader = Reader {
            code: self,
            tokens: tokens_of(expression),
            place: 0,
        };
        let value = reader.sum();
        assert_eq!(reader.place, reader.tokens.len(), "{expression}");
        value
    }

    /// The cases of an enum, each with its number: the one that it is given, or the next.
    pub fn cases(&self, name: &str) -> Vec<(String, u64)> {
        let body = between(&self.text, &format!("pub enum {name} {{"), "}");
        let cases = body.split(',').map(str::trim);
        let mut next = 0;
        cases
            .filter(|case| !case.is_empty())
            .map(|case| {
                let (name, number) = match case.split_once(" = ") {
                    Some((name, number)) => (name, self.value(number)),
                    None => (case, next),
                };
                next = number + 1;
                (name.to_string(), number)
            })
            .collect()
    }

    /// What a function that is one match answers for each pattern that binds nothing, by the pattern's innermost case.
    pub fn arms(&self, function: &str) -> Vec<(String, u64)> {
        let body = between(&self.text, &format!("pub fn {function}("), "\n}");
        let arms = body
            .lines()
            .filter_map(|line| line.trim().split_once(" => "));
        arms.map(|(pattern, answer)| (innermost(pattern), answer.trim_end_matches(',')))
            .filter(|(case, _)| case.starts_with(char::is_uppercase))
            .map(|(case, answer)| (case.to_string(), self.value(answer)))
            .collect()
    }
}

/// What stands innermost in a pattern: `Running` in `Ok(Progress::Running)`.
fn innermost(pattern: &str) -> &str {
    let inside = pattern.trim_end_matches(')');
    inside.rsplit(['(', ':']).next().unwrap_or(inside)
}

/// What stands between the only place with this front and the next end.
fn between<'a>(text: &'a str, front: &str, end: &str) -> &'a str {
    assert_eq!(text.matches(front).count(), 1, "{front}");
    let (_, behind) = text.split_once(front).expect("found before");
    let (inside, _) = behind.split_once(end).expect("an end");
    inside
}

/// The expression of each `pub const NAME: TYPE = EXPRESSION;`.
fn constants_in(text: &str) -> BTreeMap<String, String> {
    let mut constants = BTreeMap::new();
    for statement in text.split("pub const ").skip(1) {
        let (name, rest) = statement.split_once(':').expect("a constant has a type");
        let (_, rest) = rest.split_once('=').expect("a constant has a value");
        let (expression, _) = rest.split_once(';').expect("a constant has an end");
        let before = constants.insert(name.trim().to_string(), expression.trim().to_string());
        assert_eq!(before, None, "two constants are called {name}");
    }
    constants
}

/// Words, numbers and signs.
fn tokens_of(expression: &str) -> Vec<String> {
    let mut tokens: Vec<String> = Vec::new();
    let mut in_word = false;
    for sign in expression.chars() {
        let of_word = sign.is_alphanumeric() || sign == '_' || sign == ':';
        match tokens.last_mut() {
            Some(last) if of_word && in_word => last.push(sign),
            _ if !sign.is_whitespace() => tokens.push(sign.to_string()),
            _ => {}
        }
        in_word = of_word;
    }
    tokens
}

/// Reads an expression of numbers, names, `+`, `-`, `*`, brackets, `as` and the `from` of a type of numbers.
struct Reader<'a> {
    code: &'a Code,
    tokens: Vec<String>,
    place: usize,
}

impl Reader<'_> {
    fn next(&mut self) -> String {
        let token = self.tokens.get(self.place).expect("the expression goes on");
        self.place += 1;
        token.clone()
    }

    /// Takes the next token, if it is this one.
    fn take(&mut self, token: &str) -> bool {
        let found = self
            .tokens
            .get(self.place)
            .is_some_and(|next| next == token);
        self.place += usize::from(found);
        found
    }

    fn sum(&mut self) -> u64 {
        let mut sum = self.product();
        loop {
            if self.take("+") {
                sum += self.product();
            } else if self.take("-") {
                sum -= self.product();
            } else {
                return sum;
            }
        }
    }

    fn product(&mut self) -> u64 {
        let mut product = self.cast();
        while self.take("*") {
            product *= self.cast();
        }
        product
    }

    /// A value, as another type or not: the checker has proved that all fit.
    fn cast(&mut self) -> u64 {
        let value = self.atom();
        while self.take("as") {
            let kind = self.next();
            assert!(kind.starts_with('u'), "{kind}");
        }
        value
    }

    fn atom(&mut self) -> u64 {
        if self.take("(") {
            let value = self.sum();
            assert!(self.take(")"), "{:?}", self.tokens);
            return value;
        }
        let token = self.next();
        if token.starts_with(|first: char| first.is_ascii_digit()) {
            return token.replace('_', "").parse().expect("a decimal number");
        }
        let name = token.rsplit("::").next().unwrap_or(&token);
        if name == "from" && token.starts_with('u') {
            return self.atom();
        }
        self.code.constant(name)
    }
}

/// Constants may be computed from others, wherever these stand.
#[test]
fn derived_constants() {
    let code = Code::of(
        "pub const ROW: usize = KIND + 3 * sizes::NUMBER + OPERAND; // not 9\n\
         pub const KIND: usize = 1;\n// pub const KIND: usize = 2;\n\
         pub const NUMBER: usize = 1;\npub const OPERAND: usize = 4;\n\
         pub const MAX_PARTS: u8 = 200;\n\
         pub const TABLE: usize =\n    (MAX_PARTS as usize) * (ROW - 1 + 1) + 1_000;\n",
    );
    assert_eq!(code.constants()["ROW"], 8);
    assert_eq!(code.constants()["TABLE"], 2600);
    assert_eq!(code.constants().len(), 6);
}
