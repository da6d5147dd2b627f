//! What is said: answers in words or JSON, and troubles as sentences, each with an exit status of its own.

use perchmellow::Refusal;
use std::fmt::{self, Display, Write as _};
use std::io::{self, Write};

/// Settle's answer is no.
pub const NO: u8 = 1;
const BAD_USAGE: u8 = 2;
const NOT_FOUND: u8 = 3;
const IN_USE: u8 = 4;
const NO_SPACE: u8 = 5;
const NOT_ALLOWED: u8 = 6;
const EXISTS: u8 = 7;
const OTHER: u8 = 8;
const NOT_HEX: u8 = 9;
/// A refusal's status is its number and this.
const REFUSED: u8 = 10;

/// All statuses, for the help text.
pub const STATUSES: &str = "  0      done
  1      settle's answer is no
  2      bad usage
  3      a file is not there
  4      a file is in use by another run
  5      no space left, for a file or on standard output
  6      a file may not be read or written by this user
  7      a file of that name is there already
  8      other trouble with a file or a standard stream
  9      a seed, anchor or value is not written in pairs of hex digits
  11-20  refused: 10 and the refusal's number, 1 to 10
";

/// A JSON value.
pub enum Json {
    Null,
    Yes(bool),
    Number(u64),
    Text(String),
    List(Vec<Json>),
    Object(Vec<(&'static str, Json)>),
}

impl Json {
    pub fn number(n: impl Into<u64>) -> Json {
        Json::Number(n.into())
    }

    pub fn text(words: impl Into<String>) -> Json {
        Json::Text(words.into())
    }

    pub fn numbers(list: &[u32]) -> Json {
        Json::List(list.iter().map(|&n| Json::number(n)).collect())
    }

    pub fn or_null(n: Option<impl Into<u64>>) -> Json {
        n.map_or(Json::Null, Json::number)
    }
}

impl Display for Json {
    fn fmt(&self, f: &mut fmt::Formatter<'_>) -> fmt::Result {
        match self {
            Json::Null => f.write_str("null"),
            Json::Yes(yes) => write!(f, "{yes}"),
            Json::Number(n) => write!(f, "{n}"),
            Json::Text(words) => quoted(f, words),
            Json::List(list) => {
                f.write_char('[')?;
                for (at, item) in list.iter().enumerate() {
                    write!(f, "{}{item}", if at > 0 { "," } else { "" })?;
                }
                f.write_char(']')
            }
            Json::Object(fields) => {
                f.write_char('{')?;
                for (at, (name, value)) in fields.iter().enumerate() {
                    write!(f, "{}\"{name}\":{value}", if at > 0 { "," } else { "" })?;
                }
                f.write_char('}')
            }
        }
    }
}

fn quoted(f: &mut fmt::Formatter<'_>, words: &str) -> fmt::Result {
    f.write_char('"')?;
    for c in words.chars() {
        match c {
            '"' => f.write_str("\\\"")?,
            '\\' => f.write_str("\\\\")?,
            '\n' => f.write_str("\\n")?,
            c if c < ' ' || c == '\x7f' => write!(f, "\\u{:04x}", c as u32)?,
            c => f.write_char(c)?,
        }
    }
    f.write_char('"')
}

/// What a command has to say when it is done.
pub struct Answer {
    pub words: String,
    pub fields: Vec<(&'static str, Json)>,
}

/// How a command ends: with a status, or in trouble.
pub type Done = Result<u8, Trouble>;

/// Why a command did nothing.
#[derive(Debug)]
pub enum Trouble {
    /// The command line cannot be read; `help` is the line of help that it fails.
    Usage { said: String, help: String },
    /// A call of the library refused.
    Refused { call: &'static str, refusal: Refusal, found: String, remedy: &'static str },
    /// A file or a standard stream.
    File { status: u8, said: String },
}

impl Trouble {
    /// An error of the system about what `name` names.
    pub fn system(name: &str, error: &io::Error) -> Trouble {
        use io::ErrorKind::*;
        let (status, said) = match error.kind() {
            NotFound => (NOT_FOUND, format!("{name} is not there; look at the name and the folder.")),
            StorageFull | QuotaExceeded | FileTooLarge => {
                (NO_SPACE, format!("there is no space left for {name} ({error}); make room and run this again."))
            }
            PermissionDenied | ReadOnlyFilesystem => {
                (NOT_ALLOWED, format!("{name} may not be read or written by this user ({error}); look at its owner and mode."))
            }
            BrokenPipe => (OTHER, format!("nobody reads {name} any more.")),
            _ => (OTHER, format!("{name} gives trouble: {error}.")),
        };
        Trouble::File { status, said }
    }

    pub fn in_use(said: String) -> Trouble {
        Trouble::File { status: IN_USE, said }
    }

    pub fn exists(name: &str) -> Trouble {
        let said = format!("{name} is there already, and a record is never written over; give another name, or move it away.");
        Trouble::File { status: EXISTS, said }
    }

    pub fn not_hex(said: String) -> Trouble {
        Trouble::File { status: NOT_HEX, said }
    }

    pub fn other(said: String) -> Trouble {
        Trouble::File { status: OTHER, said }
    }

    /// The same trouble, with a sentence behind it.
    pub fn and(mut self, more: &str) -> Trouble {
        if let Trouble::File { said, .. } = &mut self {
            said.push(' ');
            said.push_str(more);
        }
        self
    }

    pub fn status(&self) -> u8 {
        match self {
            Trouble::Usage { .. } => BAD_USAGE,
            Trouble::Refused { refusal, .. } => REFUSED + refusal.number(),
            Trouble::File { status, .. } => *status,
        }
    }

    fn fields(&self) -> Vec<(&'static str, Json)> {
        let mut fields = vec![("ok", Json::Yes(false)), ("status", Json::number(self.status()))];
        match self {
            Trouble::Usage { said, help } => fields.extend([("said", Json::text(said)), ("help", Json::text(help))]),
            Trouble::Refused { call, refusal, found, remedy } => fields.extend([
                ("call", Json::text(*call)),
                ("refusal", Json::number(refusal.number())),
                ("said", Json::text(refusal.to_string())),
                ("found", Json::text(found)),
                ("remedy", Json::text(*remedy)),
            ]),
            Trouble::File { said, .. } => fields.push(("said", Json::text(said))),
        }
        fields
    }

    /// Says the trouble on standard error.
    pub fn tell(self, json: bool) {
        let text = if json { format!("{}\n", Json::Object(self.fields())) } else { format!("perchmellow: {self}\n") };
        let _ = io::stderr().write_all(text.as_bytes());
    }
}

impl Display for Trouble {
    fn fmt(&self, f: &mut fmt::Formatter<'_>) -> fmt::Result {
        match self {
            Trouble::Usage { said, help } => write!(f, "{said}\n{help}"),
            Trouble::Refused { call, refusal, found, remedy } => {
                write!(f, "{call} refused {}: {refusal}. Found: {found}. To do: {remedy}.", refusal.number())
            }
            Trouble::File { said, .. } => f.write_str(said),
        }
    }
}

/// Writes to standard output, all of it or a trouble.
pub fn out(text: &str) -> Result<(), Trouble> {
    let mut stdout = io::stdout().lock();
    stdout.write_all(text.as_bytes()).and_then(|()| stdout.flush()).map_err(|error| Trouble::system("standard output", &error))
}

/// Bytes as hex digits.
pub fn hex(bytes: &[u8]) -> String {
    bytes.iter().map(|byte| format!("{byte:02x}")).collect()
}

/// A number and what it counts: `1 hash`, `2 hashes`.
pub fn count(n: u32, one: &str, many: &str) -> String {
    format!("{n} {}", if n == 1 { one } else { many })
}
