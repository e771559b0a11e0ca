//! The command line.
use std::ffi::{OsStr, OsString};

pub const HELP: &str = "\
pitchsleet: a verified reader and type checker of Bril text

    pitchsleet read FILE..             the tokens of each text, or why it is refused
    pitchsleet check FILE..            its functions with blocks, edges and typed operations, or why it is refused
    pitchsleet recheck OLD FUNCTION NEW
                                       a new function in the place of one of an accepted text: what check would show
                                       of it, or why it is refused
    pitchsleet help                    this text; so do --help and -h
    pitchsleet --version               or -V

    --quiet, -q       nothing of accepted texts but warnings
    --deny-warnings   exit status 1 where there is a warning; the answers stay as they are
    --color WHEN      always, never or auto (as it is by itself: on a terminal, unless NO_COLOR is set)
    --json            the answer as one line of JSON for each text
    --json --stream   many texts on standard input, a line of JSON for each
    --dot             of check: blocks and edges as Graphviz
    --html            of check: one page for a browser, with the text and a picture of each function's blocks and edges,
                      and refusals and warnings in their places

FILE, OLD and NEW are files' names, or - for standard input; after -- a name may begin with a dash. OLD is a whole text
that check accepts. FUNCTION is the name of one of its functions, with or without the @, of several of a name the first;
or a number, from 0 in the order of the text. NEW is what replaces that function, from the first byte of its name to its
closing brace, with nothing before or behind, not even a newline. It keeps the name and the types.

read shows a token as LINE:COLUMN, its kind and its text. check shows a function's blocks by their numbers, each with its
labels, the blocks that it comes from and goes to, and dead where it isn't block 0 and no edge enters it; then its
operations, each name with its type as NAME:TYPE where the type is kept (it isn't of operands of ret, print and br).
A refusal is shown as FILE:LINE:COLUMN: refused N: with its message, the line and a caret under the place, and notes on
what the message leaves out. LINE and COLUMN are the file's, of recheck NEW's, as an editor counts them from 1; columns
count bytes. A refusal of no place in the text has FILE alone.
    The line in a message, [line N], is counted as the Rust original counts: from 1, and one more for each newline that
    is not in a comment; of recheck from the line of the function that is replaced. A note says where that differs.
Warnings are of texts that check or recheck accepts and that don't do what they seem to, on standard error in that form:
    no-fall-through   a block without jmp, br or ret before a label: it returns, and doesn't go on with the label's block
    dead-block        a block that nothing goes to
    never-set         a br's condition, or what a print prints, that no operation of the function sets and no formal is
Refusals are on standard output, with --dot on standard error; with --html both are in the page. Bytes of a text outside
printable ASCII are shown as \\x and two hexadecimal digits, tabs of the line shown as four blanks.

JSON: {\"file\":FILE,\"number\":0,\"line\":0,\"place\":0,\"message\":\"\",\"tokens\":[[KIND,VALUE,LINE,PLACE],..],
    \"names\":[NAME,..],\"warnings\":[WARNING,..]}
    or, of a refused text, {\"file\":FILE,\"number\":N,\"line\":LINE,\"place\":PLACE,\"message\":MESSAGE,\"file_line\":L,
    \"file_column\":C}, L and C null where the refusal is of no place in the text. A stream's lines have no \"file\".
    KIND is local, global, label, integer, END_OF_FILE, or the token's own text. VALUE is the name's number, the integer,
    or null. LINE is counted as in a message. PLACE counts bytes from 0. Bytes of a text outside printable ASCII are \\u00
    and two hexadecimal digits.
    A WARNING is {\"kind\":WORD,\"place\":PLACE,\"file_line\":L,\"file_column\":C,\"message\":SENTENCE}; read has none.
    check adds \"functions\":[FUNCTION,..] behind an accepted text's names. A FUNCTION is
    {\"token\":T,\"name\":N,\"line\":LINE,\"name_place\":PLACE,\"name_length\":BYTES,\"formals\":[[N,TYPE],..],\"ret\":TYPE,
    \"types\":[TYPE,..],\"type\":F,\"labels\":[[N,T,BLOCK],..],\"end_token\":T,\"end_place\":PLACE,\"blocks\":[{\"ops\":[OP,..],
    \"succs\":[BLOCK,..],\"preds\":[BLOCK,..],\"dead\":false},..]}, and an OP of a block
    {\"kind\":KIND,\"token\":T,\"operator\":WORD,\"value\":VALUE,\"result\":[N,TYPE],\"callee\":[N,TYPE],
    \"operands\":[[N,TYPE],..],\"labels\":[N,..],\"added\":false}.
    N is a name's number, T a token's index, F a function type's number, BLOCK a block's number in its function. TYPE is
    int, bool, void, placeholder, or fn and the number of a callee's function type. KIND is binary, unary, const, jmp,
    br, call, ret, print or nop. WORD is a binary or unary operation's, VALUE a const's: a number, true or false. added is
    true of a ret that isn't written. operator, value, result and callee may be null.
    recheck has check's form, of NEW: LINE starts at the replaced function's, PLACE counts from NEW's first byte, and F
    is the number in OLD. Where it is OLD that check refuses, the refusal is OLD's, with \"old\":true behind it.

A stream is, again and again, a text's length in decimal, a newline, and that many bytes; of recheck, OLD in this form,
the function's number in decimal and a newline, and NEW in this form.

Exit status: 0 all texts are accepted, or the stream was whole; 1 a text is refused, of recheck OLD or NEW; 2 something
could not be run: no such file, no function of that name, bad usage, or a bad stream (what could be is answered).
";

/// What is asked for.
#[derive(Debug, PartialEq, Eq)]
pub enum Request {
    Help,
    Version,
    Read(Vec<OsString>, Options),
    Check(Vec<OsString>, Options),
    Recheck { old: OsString, function: OsString, new: OsString, options: Options },
    Stream(Command),
}

/// What is done with a text.
#[derive(Clone, Copy, Debug, PartialEq, Eq)]
pub enum Command {
    Read,
    Check,
    Recheck,
}

impl Command {
    const ALL: [Self; 3] = [Self::Read, Self::Check, Self::Recheck];

    fn of(word: &str) -> Option<Self> {
        Self::ALL.into_iter().find(|command| command.word() == word)
    }

    fn word(self) -> &'static str {
        match self {
            Self::Read => "read",
            Self::Check => "check",
            Self::Recheck => "recheck",
        }
    }

    /// What it takes beside options.
    fn takes(self) -> &'static str {
        match self {
            Self::Read | Self::Check => "at least one FILE, or - for standard input",
            Self::Recheck => "OLD FUNCTION NEW: a file, a function's name or number, and a file",
        }
    }
}

#[derive(Clone, Copy, Debug, Default, PartialEq, Eq)]
pub enum Form {
    #[default]
    Person,
    Json,
    /// Of `check` alone.
    Dot,
    /// Of `check` alone.
    Html,
}

/// When colours are used.
#[derive(Clone, Copy, Debug, Default, PartialEq, Eq)]
pub enum Color {
    #[default]
    Auto,
    Always,
    Never,
}

/// How an answer is given.
#[derive(Clone, Copy, Debug, Default, PartialEq, Eq)]
pub struct Options {
    pub form: Form,
    pub quiet: bool,
    pub deny_warnings: bool,
    pub color: Color,
}

/// What the words after a command say, in any order but for those that are no options.
struct Words {
    command: Command,
    options: Options,
    stream: bool,
    operands: Vec<OsString>,
}

pub fn parse(words: impl IntoIterator<Item = OsString>) -> Result<Request, String> {
    let mut words = words.into_iter();
    let Some(first) = words.next() else {
        return Err("what shall be done?".to_owned());
    };
    match (first.to_str(), first.to_str().and_then(Command::of)) {
        (Some("help" | "--help" | "-h"), _) => Ok(Request::Help),
        (Some("--version" | "-V"), _) => Ok(Request::Version),
        (_, Some(command)) => Words::parse(command, words),
        _ if is_option(&first) => Err(format!("a command must come before {}", shown(&first))),
        _ => Err(format!("unknown command {}", shown(&first))),
    }
}

impl Words {
    fn parse(command: Command, mut words: impl Iterator<Item = OsString>) -> Result<Request, String> {
        let mut said = Self { command, options: Options::default(), stream: false, operands: Vec::new() };
        while let Some(word) = words.next() {
            match word.to_str() {
                Some("--help" | "-h") => return Ok(Request::Help),
                Some("--json") => said.form(Form::Json)?,
                Some("--dot") => said.form(Form::Dot)?,
                Some("--html") => said.form(Form::Html)?,
                Some("--stream") => said.stream = true,
                Some("--quiet" | "-q") => said.options.quiet = true,
                Some("--deny-warnings") => said.options.deny_warnings = true,
                Some("--color") => said.options.color = color(words.next().as_deref())?,
                Some(word) if word.starts_with("--color=") => {
                    said.options.color = color(word.strip_prefix("--color=").map(OsStr::new))?;
                }
                Some("--") => said.operands.extend(words.by_ref()),
                _ if is_option(&word) => return Err(format!("unknown option {}", shown(&word))),
                _ => said.operands.push(word),
            }
        }
        said.request()
    }

    /// One form, which the command must have.
    fn form(&mut self, form: Form) -> Result<(), String> {
        if matches!(form, Form::Dot | Form::Html) && self.command != Command::Check {
            return Err(format!("{} is an option of check, not of {}", form.option(), self.command.word()));
        }
        match self.options.form {
            Form::Person => self.options.form = form,
            said if said != form => return Err(format!("{} and {} are two answers", said.option(), form.option())),
            _ => {}
        }
        Ok(())
    }

    fn request(self) -> Result<Request, String> {
        let Options { form, quiet, deny_warnings, .. } = self.options;
        match (self.stream, form) {
            (_, form) if quiet && form != Form::Person => {
                Err(format!("--quiet is of what a person reads, and not of {}", form.option()))
            }
            (true, Form::Json) if !self.operands.is_empty() => {
                Err("--stream reads standard input and takes no FILE".to_owned())
            }
            (true, Form::Json) if deny_warnings => {
                Err("--stream answers each text in its line, and has no --deny-warnings".to_owned())
            }
            (true, Form::Json) => Ok(Request::Stream(self.command)),
            (true, _) => Err("--stream needs --json".to_owned()),
            (false, _) => self.answers(),
        }
    }

    /// A request for answers, if there are as many words as the command takes.
    fn answers(self) -> Result<Request, String> {
        let (command, options) = (self.command, self.options);
        let takes = || format!("{} takes {}", command.word(), command.takes());
        match command {
            Command::Read | Command::Check if self.operands.is_empty() => Err(takes()),
            Command::Read | Command::Check if self.operands.iter().filter(|word| *word == "-").count() > 1 => {
                Err("standard input can be read once".to_owned())
            }
            Command::Read => Ok(Request::Read(self.operands, options)),
            Command::Check => Ok(Request::Check(self.operands, options)),
            Command::Recheck => {
                let [old, function, new] = self.operands.try_into().map_err(|_| takes())?;
                match old == "-" && new == "-" {
                    true => Err("OLD and NEW can't both be standard input".to_owned()),
                    false => Ok(Request::Recheck { old, function, new, options }),
                }
            }
        }
    }
}

impl Form {
    fn option(self) -> &'static str {
        match self {
            Self::Person => "no option",
            Self::Json => "--json",
            Self::Dot => "--dot",
            Self::Html => "--html",
        }
    }
}

fn color(when: Option<&OsStr>) -> Result<Color, String> {
    match when.and_then(OsStr::to_str) {
        Some("auto") => Ok(Color::Auto),
        Some("always") => Ok(Color::Always),
        Some("never") => Ok(Color::Never),
        _ => Err("--color takes always, never or auto".to_owned()),
    }
}

/// A dash alone is standard input.
fn is_option(word: &OsStr) -> bool {
    word.as_encoded_bytes().starts_with(b"-") && word != "-"
}

/// A word of the command line as it is, but for what would disturb a terminal or a line: control characters, and bytes
/// that are no UTF-8, as `\x` and two hexadecimal digits for each byte.
pub fn shown(word: &OsStr) -> String {
    let mut shown = String::new();
    for chunk in word.as_encoded_bytes().utf8_chunks() {
        for character in chunk.valid().chars() {
            match character.is_control() {
                true => push_bytes(&mut shown, character.encode_utf8(&mut [0; 4]).as_bytes()),
                false => shown.push(character),
            }
        }
        push_bytes(&mut shown, chunk.invalid());
    }
    shown
}

fn push_bytes(shown: &mut String, bytes: &[u8]) {
    for byte in bytes {
        shown.push_str(&format!("\\x{byte:02x}"));
    }
}
