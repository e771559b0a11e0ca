//! A reader of JSON, for the lines of the oracle and of the command-line tool.

#[derive(Clone, Debug, PartialEq)]
pub enum Json {
    Null,
    Bool(bool),
    Number(i64),
    Text(String),
    List(Vec<Json>),
    Object(Vec<(String, Json)>),
}

impl Json {
    /// The value of a whole line. Anything but JSON of whole numbers is a mistake of the side that wrote it.
    pub fn parse(line: &str) -> Self {
        let mut parser = Parser { line, at: 0 };
        let value = parser.value();
        assert_eq!(parser.at, line.len(), "something follows the value: {line}");
        value
    }

    pub fn get(&self, key: &str) -> Option<&Json> {
        match self {
            Self::Object(members) => members.iter().find(|(name, _)| name == key).map(|(_, value)| value),
            _ => None,
        }
    }

    pub fn number(&self) -> i64 {
        match self {
            Self::Number(number) => *number,
            other => panic!("no number: {other:?}"),
        }
    }

    pub fn text(&self) -> &str {
        match self {
            Self::Text(text) => text,
            other => panic!("no text: {other:?}"),
        }
    }

    pub fn list(&self) -> &[Json] {
        match self {
            Self::List(items) => items,
            other => panic!("no list: {other:?}"),
        }
    }

    /// The bytes of a text whose characters are all below 256.
    pub fn bytes(&self) -> Vec<u8> {
        self.text().chars().map(|c| u8::try_from(c).expect("a byte")).collect()
    }
}

struct Parser<'a> {
    line: &'a str,
    at: usize,
}

impl Parser<'_> {
    fn rest(&self) -> &str {
        &self.line[self.at..]
    }

    fn take(&mut self, what: &str) -> bool {
        let found = self.rest().starts_with(what);
        if found {
            self.at += what.len();
        }
        found
    }

    fn expect(&mut self, what: &str) {
        assert!(self.take(what), "{what} expected at {} of {}", self.at, self.line);
    }

    fn value(&mut self) -> Json {
        match self.rest().as_bytes().first().copied() {
            Some(b'"') => Json::Text(self.string()),
            Some(b'[') => Json::List(self.sequence("[", "]", Self::value)),
            Some(b'{') => Json::Object(self.sequence("{", "}", Self::member)),
            Some(b'-' | b'0'..=b'9') => Json::Number(self.integer()),
            _ if self.take("null") => Json::Null,
            _ if self.take("true") => Json::Bool(true),
            _ => {
                self.expect("false");
                Json::Bool(false)
            }
        }
    }

    fn sequence<T>(&mut self, open: &str, close: &str, each: impl Fn(&mut Self) -> T) -> Vec<T> {
        let mut items = Vec::new();
        self.expect(open);
        while !self.take(close) {
            if !items.is_empty() {
                self.expect(",");
            }
            items.push(each(self));
        }
        items
    }

    fn member(&mut self) -> (String, Json) {
        let name = self.string();
        self.expect(":");
        (name, self.value())
    }

    fn integer(&mut self) -> i64 {
        let rest = self.rest();
        let length = rest.bytes().take_while(|byte| matches!(byte, b'-' | b'0'..=b'9')).count();
        let number = rest[..length].parse().expect("a whole number");
        self.at += length;
        number
    }

    fn string(&mut self) -> String {
        let mut text = String::new();
        self.expect("\"");
        while !self.take("\"") {
            let c = self.rest().chars().next().expect("a closed string");
            self.at += c.len_utf8();
            text.push(if c == '\\' { self.escaped() } else { c });
        }
        text
    }

    fn escaped(&mut self) -> char {
        if self.take("u") {
            let unit = u32::from_str_radix(&self.rest()[..4], 16).expect("four hexadecimal digits");
            self.at += 4;
            return char::from_u32(unit).expect("no surrogate: all texts are ASCII");
        }
        let c = self.rest().chars().next().expect("an escape");
        assert!(matches!(c, '"' | '\\'), "an escape that nobody writes here: {c}");
        self.at += 1;
        c
    }
}
