//! JSON as RFC 8259 has it, and nothing more lenient.

use std::ops::Index;

#[derive(Clone, Debug, PartialEq)]
pub enum Value {
    Null,
    Yes(bool),
    Number(u64),
    Text(String),
    List(Vec<Value>),
    Object(Vec<(String, Value)>),
}

impl Value {
    pub fn number(&self) -> u64 {
        let Value::Number(n) = self else { panic!("{self:?} is no number") };
        *n
    }

    pub fn text(&self) -> &str {
        let Value::Text(text) = self else { panic!("{self:?} is no text") };
        text
    }

    pub fn list(&self) -> &[Value] {
        let Value::List(list) = self else { panic!("{self:?} is no list") };
        list
    }
}

impl Index<&str> for Value {
    type Output = Value;

    fn index(&self, name: &str) -> &Value {
        let Value::Object(fields) = self else { panic!("{self:?} is no object") };
        &fields.iter().find(|(field, _)| field == name).unwrap_or_else(|| panic!("no {name} in {self:?}")).1
    }
}

/// One value and a line feed.
pub fn parse(text: &str) -> Value {
    let mut rest = text.strip_suffix('\n').unwrap_or_else(|| panic!("no line feed at the end of {text:?}")).chars().peekable();
    let value = value(&mut rest);
    assert_eq!(rest.next(), None, "something behind the value in {text:?}");
    value
}

type Rest<'a> = std::iter::Peekable<std::str::Chars<'a>>;

fn value(rest: &mut Rest) -> Value {
    match rest.peek().expect("the text ends too early") {
        'n' => word(rest, "null", Value::Null),
        't' => word(rest, "true", Value::Yes(true)),
        'f' => word(rest, "false", Value::Yes(false)),
        '"' => Value::Text(string(rest)),
        '[' => Value::List(items(rest, ']', value)),
        '{' => {
            let fields = items(rest, '}', |rest| {
                let name = string(rest);
                assert_eq!(rest.next(), Some(':'));
                (name, value(rest))
            });
            let mut names: Vec<_> = fields.iter().map(|(name, _)| name.clone()).collect();
            names.sort();
            names.dedup();
            assert_eq!(names.len(), fields.len(), "a name stands there twice");
            Value::Object(fields)
        }
        _ => {
            let mut digits = String::new();
            while let Some(digit) = rest.next_if(char::is_ascii_digit) {
                digits.push(digit);
            }
            assert!(digits == "0" || !digits.starts_with('0'), "{digits:?} is no number");
            Value::Number(digits.parse().unwrap_or_else(|_| panic!("{digits:?} is no number")))
        }
    }
}

fn word(rest: &mut Rest, word: &str, value: Value) -> Value {
    assert!(word.chars().all(|c| rest.next() == Some(c)));
    value
}

fn items<T>(rest: &mut Rest, end: char, mut item: impl FnMut(&mut Rest) -> T) -> Vec<T> {
    rest.next();
    let mut list = Vec::new();
    if rest.next_if_eq(&end).is_some() {
        return list;
    }
    loop {
        list.push(item(rest));
        match rest.next() {
            Some(',') => {}
            Some(c) if c == end => return list,
            other => panic!("{other:?} in a list"),
        }
    }
}

fn string(rest: &mut Rest) -> String {
    assert_eq!(rest.next(), Some('"'));
    let mut text = String::new();
    loop {
        match rest.next().expect("the text ends in a string") {
            '"' => return text,
            '\\' => text.push(match rest.next() {
                Some('n') => '\n',
                Some('u') => {
                    let digits: String = rest.by_ref().take(4).collect();
                    char::from_u32(u32::from_str_radix(&digits, 16).unwrap()).unwrap()
                }
                Some(c @ ('"' | '\\')) => c,
                other => panic!("\\{other:?} in a string"),
            }),
            c if c < ' ' => panic!("{c:?} in a string"),
            c => text.push(c),
        }
    }
}
