//! JSON, as far as the cases need it: what isn't valid ends the program.

use std::collections::BTreeMap;

#[derive(Debug)]
pub enum Json {
    Null,
    Bool(bool),
    Number(usize),
    Text(String),
    List(Vec<Json>),
    Object(BTreeMap<String, Json>),
}

impl Json {
    /// The value that a line holds.
    pub fn read(line: &str) -> Json {
        let mut reader = Reader { line, at: 0 };
        let value = reader.value();
        assert_eq!(reader.peek(), None, "the line ends after its value");
        value
    }

    /// The field of this name, where there is one.
    pub fn get(&self, name: &str) -> Option<&Json> {
        match self {
            Json::Object(fields) => fields.get(name),
            _ => None,
        }
    }

    pub fn text(&self, name: &str) -> Option<&str> {
        match self.get(name) {
            Some(Json::Text(text)) => Some(text),
            _ => None,
        }
    }

    pub fn number(&self, name: &str) -> Option<usize> {
        match self.get(name) {
            Some(Json::Number(number)) => Some(*number),
            _ => None,
        }
    }

    pub fn flag(&self, name: &str, default: bool) -> bool {
        match self.get(name) {
            Some(Json::Bool(flag)) => *flag,
            _ => default,
        }
    }

    pub fn list(&self, name: &str) -> &[Json] {
        match self.get(name) {
            Some(Json::List(items)) => items,
            _ => &[],
        }
    }
}

struct Reader<'a> {
    line: &'a str,
    at: usize,
}

impl Reader<'_> {
    /// The next byte that isn't blank.
    fn peek(&mut self) -> Option<u8> {
        let rest = self.line[self.at..].trim_start();
        self.at = self.line.len() - rest.len();
        rest.bytes().next()
    }

    fn takes(&mut self, byte: u8) -> bool {
        let found = self.peek() == Some(byte);
        self.at += usize::from(found);
        found
    }

    fn word(&mut self, word: &str, value: Json) -> Json {
        assert!(self.line[self.at..].starts_with(word), "a value at byte {}", self.at);
        self.at += word.len();
        value
    }

    fn value(&mut self) -> Json {
        match self.peek().expect("a value") {
            b'{' => self.object(),
            b'[' => self.list(),
            b'"' => Json::Text(self.text()),
            b't' => self.word("true", Json::Bool(true)),
            b'f' => self.word("false", Json::Bool(false)),
            b'n' => self.word("null", Json::Null),
            _ => self.number(),
        }
    }

    fn object(&mut self) -> Json {
        let mut fields = BTreeMap::new();
        self.at += 1;
        while !self.takes(b'}') {
            self.peek();
            let name = self.text();
            assert!(self.takes(b':'), "a colon at byte {}", self.at);
            fields.insert(name, self.value());
            self.takes(b',');
        }
        Json::Object(fields)
    }

    fn list(&mut self) -> Json {
        let mut items = Vec::new();
        self.at += 1;
        while !self.takes(b']') {
            items.push(self.value());
            self.takes(b',');
        }
        Json::List(items)
    }

    fn number(&mut self) -> Json {
        let rest = &self.line[self.at..];
        let end = rest.find(|c: char| !c.is_ascii_digit()).unwrap_or(rest.len());
        self.at += end;
        Json::Number(rest[..end].parse().expect("a whole number"))
    }

    fn text(&mut self) -> String {
        assert!(self.takes(b'"'), "a text at byte {}", self.at);
        let mut text = String::new();
        loop {
            let rest = &self.line[self.at..];
            let end = rest.find(['"', '\\']).expect("the end of a text");
            text.push_str(&rest[..end]);
            self.at += end + 1;
            if rest.as_bytes()[end] == b'"' {
                return text;
            }
            let c = self.escaped();
            text.push(c);
        }
    }

    /// The character of an escape, after its backslash.
    fn escaped(&mut self) -> char {
        let kind = self.line.as_bytes()[self.at];
        self.at += 1;
        match kind {
            b'n' => '\n',
            b't' => '\t',
            b'r' => '\r',
            b'b' => '\u{8}',
            b'f' => '\u{c}',
            b'u' => {
                let unit = self.unit();
                if (0xd800..0xdc00).contains(&unit) {
                    self.at += 2;
                    let low = self.unit();
                    return char::from_u32(0x10000 + ((unit - 0xd800) << 10) + (low - 0xdc00))
                        .expect("a pair of surrogates");
                }
                char::from_u32(unit).expect("a character")
            }
            other => other as char,
        }
    }

    fn unit(&mut self) -> u32 {
        let digits = &self.line[self.at..self.at + 4];
        self.at += 4;
        u32::from_str_radix(digits, 16).expect("four digits")
    }
}
