//! A strict reader of JSON, for the tests.

use std::iter::Peekable;
use std::str::Chars;

/// A value.
#[derive(Clone, Debug, PartialEq, Eq)]
pub enum Json {
    Null,
    True,
    False,
    /// A number, as it is written.
    Number(String),
    Text(String),
    List(Vec<Json>),
    /// Names and values, in their order; no name comes twice.
    Object(Vec<(String, Json)>),
}

impl Json {
    /// The value of all of a text; no space, byte or name too many.
    pub fn of(text: &str) -> Result<Json, String> {
        let mut reader = Reader {
            rest: text.chars().peekable(),
        };
        let value = reader.value()?;
        match reader.rest.next() {
            None => Ok(value),
            Some(more) => Err(format!("{more:?} after the value")),
        }
    }

    /// The value of a name of an object.
    pub fn get(&self, name: &str) -> &Json {
        let Json::Object(members) = self else {
            panic!("no object: {self:?}");
        };
        let member = members.iter().find(|member| member.0 == name);
        &member.unwrap_or_else(|| panic!("no {name} in {self:?}")).1
    }

    /// The names of an object.
    pub fn names(&self) -> Vec<&str> {
        match self {
            Json::Object(members) => members.iter().map(|member| member.0.as_str()).collect(),
            other => panic!("no object: {other:?}"),
        }
    }

    /// A text whose characters are bytes.
    pub fn bytes(&self) -> Vec<u8> {
        match self {
            Json::Text(text) => text
                .chars()
                .map(|c| u8::try_from(u32::from(c)).expect("a byte"))
                .collect(),
            other => panic!("no text: {other:?}"),
        }
    }

    /// A word as a line has it: `none` for nothing.
    pub fn word(&self, none: &str) -> String {
        match self {
            Json::Null => none.into(),
            Json::True => "true".into(),
            Json::False => "false".into(),
            Json::Number(number) => number.clone(),
            Json::Text(text) => text.clone(),
            other => panic!("no word: {other:?}"),
        }
    }
}

struct Reader<'a> {
    rest: Peekable<Chars<'a>>,
}

impl Reader<'_> {
    fn value(&mut self) -> Result<Json, String> {
        match self.rest.peek() {
            Some('{') => self.object(),
            Some('[') => self.list(),
            Some('"') => Ok(Json::Text(self.text()?)),
            Some('-' | '0'..='9') => self.number(),
            Some('n') => self.word("null", Json::Null),
            Some('t') => self.word("true", Json::True),
            Some('f') => self.word("false", Json::False),
            other => Err(format!("no value begins with {other:?}")),
        }
    }

    fn due(&mut self, due: char) -> Result<(), String> {
        match self.rest.next() {
            Some(c) if c == due => Ok(()),
            other => Err(format!("{other:?} where {due:?} is due")),
        }
    }

    fn word(&mut self, word: &str, value: Json) -> Result<Json, String> {
        word.chars().try_for_each(|c| self.due(c))?;
        Ok(value)
    }

    /// Whether another item follows, after one of a list or an object that ends with a character.
    fn more(&mut self, end: char) -> Result<bool, String> {
        match self.rest.next() {
            Some(',') => Ok(true),
            Some(c) if c == end => Ok(false),
            other => Err(format!("{other:?} where a comma or {end:?} is due")),
        }
    }

    fn object(&mut self) -> Result<Json, String> {
        self.due('{')?;
        let mut members: Vec<(String, Json)> = Vec::new();
        if self.rest.next_if_eq(&'}').is_some() {
            return Ok(Json::Object(members));
        }
        loop {
            let name = self.text()?;
            if members.iter().any(|member| member.0 == name) {
                return Err(format!("{name} twice"));
            }
            self.due(':')?;
            members.push((name, self.value()?));
            if !self.more('}')? {
                return Ok(Json::Object(members));
            }
        }
    }

    fn list(&mut self) -> Result<Json, String> {
        self.due('[')?;
        let mut items = Vec::new();
        if self.rest.next_if_eq(&']').is_some() {
            return Ok(Json::List(items));
        }
        loop {
            items.push(self.value()?);
            if !self.more(']')? {
                return Ok(Json::List(items));
            }
        }
    }

    fn digits(&mut self, number: &mut String) -> Result<(), String> {
        let before = number.len();
        while let Some(digit) = self.rest.next_if(char::is_ascii_digit) {
            number.push(digit);
        }
        match number.len() > before {
            true => Ok(()),
            false => Err(format!("a digit is due after {number}")),
        }
    }

    fn number(&mut self) -> Result<Json, String> {
        let mut number = String::new();
        number.extend(self.rest.next_if_eq(&'-'));
        if self.rest.next_if_eq(&'0').is_some() {
            number.push('0');
        } else {
            self.digits(&mut number)?;
        }
        if self.rest.next_if_eq(&'.').is_some() {
            number.push('.');
            self.digits(&mut number)?;
        }
        if let Some(e) = self.rest.next_if(|c| matches!(c, 'e' | 'E')) {
            number.push(e);
            number.extend(self.rest.next_if(|c| matches!(c, '+' | '-')));
            self.digits(&mut number)?;
        }
        Ok(Json::Number(number))
    }

    fn text(&mut self) -> Result<String, String> {
        self.due('"')?;
        let mut text = String::new();
        loop {
            match self.rest.next() {
                Some('"') => return Ok(text),
                Some('\\') => text.push(self.escape()?),
                Some(c) if c >= ' ' => text.push(c),
                other => return Err(format!("{other:?} in a text")),
            }
        }
    }

    fn escape(&mut self) -> Result<char, String> {
        match self.rest.next() {
            Some(c @ ('"' | '\\' | '/')) => Ok(c),
            Some('b') => Ok('\x08'),
            Some('f') => Ok('\x0c'),
            Some('n') => Ok('\n'),
            Some('r') => Ok('\r'),
            Some('t') => Ok('\t'),
            Some('u') => {
                let hex: String = self.rest.by_ref().take(4).collect();
                let digits = hex.len() == 4 && hex.bytes().all(|b| b.is_ascii_hexdigit());
                let number = u32::from_str_radix(&hex, 16).ok().filter(|_| digits);
                let number = number.ok_or_else(|| format!("\\u{hex}"))?;
                char::from_u32(number).ok_or_else(|| format!("half of a pair: {hex}"))
            }
            other => Err(format!("no escape: {other:?}")),
        }
    }
}
