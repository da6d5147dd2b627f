//! The command line, read by the same table that the help text is printed from.

use crate::help::{Command, COMMANDS};
use crate::say::{out, Answer, Done, Json, Trouble};
use perchmellow::{level, start_ticks, Refusal, AES, K_MOST, MD5, OPTIMAL, RUSHING, SPEED_1, SPEED_2};
use std::ffi::{OsStr, OsString};
use std::path::Path;

pub const FUNCTIONS: [(&str, u32); 2] = [("md5", MD5), ("aes", AES)];
pub const SCHEDULES: [(&str, u32); 4] = [("rushing", RUSHING), ("speed-1", SPEED_1), ("speed-2", SPEED_2), ("optimal", OPTIMAL)];

/// How many ticks a card has: 2^k of them, or any number.
#[derive(Clone, Copy)]
pub enum Size {
    K(u32),
    Ticks(u32),
}

impl Size {
    /// The k of the card's record. Ticks that no card has are refused as by the calls that take them: function, schedule, ticks.
    pub fn k(self, function: u32, schedule: u32) -> Result<u32, Refusal> {
        match self {
            Size::K(k) => Ok(k),
            Size::Ticks(ticks) => level(ticks).or_else(|refusal| start_ticks(function, ticks, schedule, &[], &mut []).and(Err(refusal))),
        }
    }

    /// The ticks; of a k that no card has, those of the greatest.
    pub fn ticks(self) -> u32 {
        match self {
            Size::K(k) => 1 << k.min(K_MOST),
            Size::Ticks(ticks) => ticks,
        }
    }
}

/// A command's operands and options.
pub struct Args {
    pub command: &'static Command,
    operands: Vec<OsString>,
    options: Vec<(&'static str, OsString)>,
}

/// Reads the words behind the program's name and does what they say.
pub fn perform(words: &[OsString]) -> Done {
    let Some((name, rest)) = words.split_first() else {
        return Err(no_command("a command is wanted."));
    };
    let asks = |word: &OsString| matches!(word.to_str(), Some("--help" | "-h"));
    if asks(name) || (name == "help" && rest.is_empty()) {
        return out(&crate::help::overview()).map(|()| 0);
    }
    let (name, rest) = if name == "help" { (&rest[0], &rest[1..]) } else { (name, rest) };
    let Some(command) = COMMANDS.iter().find(|command| name == command.name) else {
        // What was typed is not repeated: it may be a seed in the wrong place.
        return Err(no_command("the first word names no command."));
    };
    if words[0] == "help" || rest.iter().any(asks) {
        return out(&command.help()).map(|()| 0);
    }
    (command.run)(&Args::read(command, rest)?)
}

fn no_command(said: &str) -> Trouble {
    let names: Vec<_> = COMMANDS.iter().map(|command| command.name).collect();
    let help = format!("usage: perchmellow COMMAND ..., where COMMAND is one of {}\n'perchmellow --help' says more.", names.join(", "));
    Trouble::Usage { said: said.into(), help }
}

impl Args {
    fn read(command: &'static Command, words: &[OsString]) -> Result<Args, Trouble> {
        let mut args = Args { command, operands: Vec::new(), options: Vec::new() };
        let mut words = words.iter();
        let mut options = true;
        while let Some(word) = words.next() {
            let text = word.to_str().unwrap_or("");
            if options && text == "--" {
                options = false;
            } else if options && text.starts_with('-') && text != "-" {
                let (name, glued) = text.split_once('=').map_or((text, None), |(name, value)| (name, Some(value)));
                let Some(form) = command.options.iter().map(|option| option.form).find(|form| form.split(' ').next() == Some(name)) else {
                    // Nor is a long word repeated here.
                    let name = if name.len() < 20 { name } else { "of that name" };
                    return Err(args.usage(&format!("{} has no option {name}.", command.name)));
                };
                let name = form.split(' ').next().unwrap_or(form);
                let value = match (form.contains(' '), glued) {
                    (true, Some(value)) => value.into(),
                    (true, None) => words.next().cloned().ok_or_else(|| args.wrong(name, "wants a value behind it"))?,
                    (false, None) => OsString::new(),
                    (false, Some(_)) => return Err(args.wrong(name, "takes no value")),
                };
                if args.value(name).is_some() {
                    return Err(args.wrong(name, "stands there twice"));
                }
                args.options.push((name, value));
            } else {
                args.operands.push(word.clone());
            }
        }
        if args.operands.len() > command.operands.split_whitespace().count() {
            return Err(args.usage(&format!("there are too many words for {}.", command.name)));
        }
        match command.options.iter().find(|option| option.needed && args.value(option.name()).is_none()) {
            Some(option) => Err(args.wrong(option.name(), "is wanted")),
            None => Ok(args),
        }
    }

    /// Bad usage of the command.
    pub fn usage(&self, said: &str) -> Trouble {
        let help = format!("{}\n'perchmellow {} --help' says more.", self.command.usage(), self.command.name);
        Trouble::Usage { said: said.into(), help }
    }

    /// Bad usage of one option.
    pub fn wrong(&self, option: &str, said: &str) -> Trouble {
        let line = self.command.options.iter().find(|o| o.name() == option).map_or(String::new(), |o| o.line());
        let help = format!("{line}{}\n'perchmellow {} --help' says more.", self.command.usage(), self.command.name);
        Trouble::Usage { said: format!("{option} {said}."), help }
    }

    pub fn flag(&self, name: &str) -> bool {
        self.value(name).is_some()
    }

    pub fn value(&self, name: &str) -> Option<&OsStr> {
        self.options.iter().find(|(option, _)| *option == name).map(|(_, value)| value.as_os_str())
    }

    pub fn path(&self, name: &str) -> Option<&Path> {
        self.value(name).map(Path::new)
    }

    /// An option that this use of the command cannot do without.
    pub fn needed(&self, name: &str) -> Result<&OsStr, Trouble> {
        self.value(name).ok_or_else(|| self.wrong(name, "is wanted"))
    }

    pub fn operands(&self) -> usize {
        self.operands.len()
    }

    pub fn operand(&self, at: usize) -> Result<&OsStr, Trouble> {
        let name = self.command.operands.split_whitespace().nth(at).unwrap_or("operand").trim_matches(['[', ']']);
        self.operands.get(at).map(OsString::as_os_str).ok_or_else(|| self.usage(&format!("{} wants {name}.", self.command.name)))
    }

    /// A number in decimal. One too great for 32 bits counts as the greatest of them, which every call refuses.
    pub fn number(&self, name: &str) -> Result<Option<u32>, Trouble> {
        let Some(value) = self.value(name) else { return Ok(None) };
        decimal(value).map(Some).ok_or_else(|| self.wrong(name, "wants a number in decimal digits"))
    }

    pub fn function(&self) -> Result<u32, Trouble> {
        named(self.needed("--function")?, &FUNCTIONS).ok_or_else(|| self.wrong("--function", "is not known by that name"))
    }

    pub fn k(&self) -> Result<u32, Trouble> {
        self.needed("--k")?;
        Ok(self.number("--k")?.unwrap_or(0))
    }

    /// A card's size, by one of `--k` and `--ticks`.
    pub fn size(&self) -> Result<Size, Trouble> {
        match (self.number("--k")?, self.number("--ticks")?) {
            (Some(k), None) => Ok(Size::K(k)),
            (None, Some(ticks)) => Ok(Size::Ticks(ticks)),
            (Some(_), Some(_)) => Err(self.wrong("--ticks", "cannot stand beside --k; give one of the two")),
            (None, None) => Err(self.wrong("--k", "or --ticks is wanted")),
        }
    }

    /// The schedule: optimal where nothing else is asked for.
    pub fn schedule(&self) -> Result<u32, Trouble> {
        let Some(value) = self.value("--schedule") else { return Ok(OPTIMAL) };
        named(value, &SCHEDULES).ok_or_else(|| self.wrong("--schedule", "is not known by that name"))
    }

    /// A schedule by its name and a k of at most `most`, as operands from number `at`.
    pub fn run_asked(&self, at: usize, most: u32) -> Result<(&'static str, u32, u32), Trouble> {
        let (name, digits) = (self.operand(at)?, self.operand(at + 1)?);
        let named = SCHEDULES.iter().find(|(known, _)| name == *known);
        let &(name, schedule) = named.ok_or_else(|| self.usage("SCHEDULE is rushing, speed-1, speed-2 or optimal."))?;
        let k = decimal(digits).filter(|k| *k <= most && digits == &*k.to_string());
        Ok((name, schedule, k.ok_or_else(|| self.usage(&format!("K is from 0 to {most}, in decimal without leading zeros.")))?))
    }

    pub fn json(&self) -> bool {
        self.flag("--json")
    }

    /// Says the answer on standard output.
    pub fn answer(&self, answer: Answer) -> Result<(), Trouble> {
        if !self.json() {
            return out(&answer.words);
        }
        let mut fields = vec![("ok", Json::Yes(true)), ("call", Json::text(self.command.name))];
        fields.extend(answer.fields);
        out(&format!("{}\n", Json::Object(fields)))
    }
}

pub fn decimal(text: &OsStr) -> Option<u32> {
    let text = text.to_str().filter(|text| !text.is_empty() && text.bytes().all(|b| b.is_ascii_digit()))?;
    Some(text.parse().unwrap_or(u32::MAX))
}

/// A name of the table, or a number.
pub fn named(text: &OsStr, table: &[(&str, u32)]) -> Option<u32> {
    table.iter().find(|(name, _)| text == *name).map(|(_, number)| *number).or_else(|| decimal(text))
}

/// A number's name.
pub fn name_of(number: u32, table: &[(&'static str, u32)]) -> &'static str {
    table.iter().find(|(_, known)| *known == number).map_or("unknown", |(name, _)| name)
}
