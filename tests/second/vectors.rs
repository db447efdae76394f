//! The cases of `tests/vectors`, whose head tells its form: calls with their whole outcome.

use std::collections::HashMap;

/// A buffer of a case.
pub enum Part {
    /// One that is read.
    Read(Vec<u8>),
    /// One that is written to: its length, and its first bytes afterwards.
    Lent(usize, Vec<u8>),
    /// The answer's: its length, the code's name and the other five fields.
    Answer(usize, String, [u32; 5]),
}

pub struct Case {
    pub name: String,
    pub call: String,
    pub numbers: Vec<u32>,
    pub parts: Vec<Part>,
    /// The name of the code that is the call's result.
    pub gives: String,
}

/// One digit a byte.
pub fn digits(text: &str) -> Vec<u8> {
    text.bytes().filter(u8::is_ascii_digit).map(|digit| digit - b'0').collect()
}

#[derive(Default)]
pub struct Vectors {
    tables: HashMap<String, Vec<u8>>,
    pub cases: Vec<Case>,
}

fn number<Number: std::str::FromStr>(word: &str) -> Number {
    word.parse().unwrap_or_else(|_| panic!("not a number: {word}"))
}

fn first_word(text: &str) -> (&str, &str) {
    text.split_once(' ').unwrap_or((text, ""))
}

impl Vectors {
    pub fn table(&self, name: &str) -> Vec<u8> {
        self.tables[name].clone()
    }

    fn bytes(&self, text: &str) -> Vec<u8> {
        self.tables.get(text).cloned().unwrap_or_else(|| digits(text))
    }

    fn part(&self, word: &str, rest: &str) -> Part {
        let (length, after) = first_word(rest);
        match word {
            "read" => Part::Read(self.bytes(rest)),
            "lend" => Part::Lent(number(length), self.bytes(after)),
            _ => {
                let (code, fields) = first_word(after);
                let fields: Vec<u32> = fields.split_whitespace().map(number).collect();
                let fields = fields.try_into().expect("five fields after the code");
                Part::Answer(number(length), code.to_string(), fields)
            }
        }
    }

    fn line(&mut self, word: &str, rest: &str) {
        if word == "table" {
            let (name, text) = first_word(rest);
            self.tables.insert(name.to_string(), digits(text));
            return;
        }
        if word == "case" {
            let (call, gives) = (String::new(), String::new());
            let (numbers, parts) = (Vec::new(), Vec::new());
            self.cases.push(Case { name: rest.to_string(), call, numbers, parts, gives });
            return;
        }
        let part = matches!(word, "read" | "lend" | "answer").then(|| self.part(word, rest));
        let case = self.cases.last_mut().expect("a case has begun");
        match (word, part) {
            ("call", _) => {
                let (name, numbers) = first_word(rest);
                case.call = name.to_string();
                case.numbers = numbers.split_whitespace().map(number).collect();
            }
            ("gives", _) => case.gives = rest.to_string(),
            (_, Some(part)) => case.parts.push(part),
            _ => panic!("no such line: {word}"),
        }
    }

    pub fn read(text: &str) -> Vectors {
        let mut vectors = Vectors::default();
        for line in text.lines().map(str::trim) {
            if !line.is_empty() && !line.starts_with('#') {
                let (word, rest) = first_word(line);
                vectors.line(word, rest.trim());
            }
        }
        vectors
    }
}
