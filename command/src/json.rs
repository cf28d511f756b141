//! One JSON object of a line: strings, numbers, true, false and null, nothing nested.

/// A value. A number stays as it was spelled, so that no digit is lost.
#[derive(Clone, Debug, PartialEq, Eq)]
pub enum Value {
    Null,
    Bool(bool),
    Number(String),
    Text(String),
}

pub fn quoted(text: &str) -> String {
    let mut out = String::from("\"");
    for letter in text.chars() {
        match letter {
            '"' => out.push_str("\\\""),
            '\\' => out.push_str("\\\\"),
            letter if letter < ' ' => out.push_str(&format!("\\u{:04x}", letter as u32)),
            letter => out.push(letter),
        }
    }
    out + "\""
}

/// The members of the object that a line is, in order.
pub fn object(line: &str) -> Result<Vec<(String, Value)>, String> {
    let mut reader = Reader { text: line, at: 0 };
    let members = reader.object()?;
    reader.space();
    match reader.rest().is_empty() {
        true => Ok(members),
        false => Err(reader.wrong("nothing more behind the object")),
    }
}

struct Reader<'a> {
    text: &'a str,
    at: usize,
}

impl<'a> Reader<'a> {
    fn rest(&self) -> &'a str {
        &self.text[self.at..]
    }

    fn wrong(&self, wanted: &str) -> String {
        format!("column {}: expected {wanted}", self.at + 1)
    }

    fn space(&mut self) {
        let rest = self.rest();
        self.at += rest.len() - rest.trim_start_matches([' ', '\t', '\r', '\n']).len();
    }

    /// Passes over a word, if it stands here.
    fn passes(&mut self, word: &str) -> bool {
        let stands = self.rest().starts_with(word);
        if stands {
            self.at += word.len();
        }
        stands
    }

    fn object(&mut self) -> Result<Vec<(String, Value)>, String> {
        let mut members: Vec<(String, Value)> = Vec::new();
        self.space();
        if !self.passes("{") {
            return Err(self.wrong("{, a line is one JSON object"));
        }
        self.space();
        if self.passes("}") {
            return Ok(members);
        }
        loop {
            let (key, value) = self.member()?;
            if members.iter().any(|(earlier, _)| *earlier == key) {
                return Err(format!("\"{key}\" stands there twice"));
            }
            members.push((key, value));
            if self.passes("}") {
                return Ok(members);
            }
            if !self.passes(",") {
                return Err(self.wrong(", or }"));
            }
        }
    }

    fn member(&mut self) -> Result<(String, Value), String> {
        self.space();
        let key = self.string()?;
        self.space();
        if !self.passes(":") {
            return Err(self.wrong(":"));
        }
        self.space();
        let value = self.value()?;
        self.space();
        Ok((key, value))
    }

    fn value(&mut self) -> Result<Value, String> {
        if self.rest().starts_with('"') {
            return Ok(Value::Text(self.string()?));
        }
        let words = [
            ("null", Value::Null),
            ("true", Value::Bool(true)),
            ("false", Value::Bool(false)),
        ];
        for (word, value) in words {
            if self.passes(word) {
                return Ok(value);
            }
        }
        let rest = self.rest();
        let number = rest.trim_start_matches(|c: char| c.is_ascii_digit() || "+-.eE".contains(c));
        let spelled = &rest[..rest.len() - number.len()];
        if spelled.is_empty() {
            return Err(self.wrong("a string, a number, true, false or null"));
        }
        self.at += spelled.len();
        Ok(Value::Number(spelled.to_string()))
    }

    fn string(&mut self) -> Result<String, String> {
        if !self.passes("\"") {
            return Err(self.wrong("\""));
        }
        let mut out = String::new();
        loop {
            let Some(letter) = self.rest().chars().next() else {
                return Err(self.wrong("\" at the end of a string"));
            };
            self.at += letter.len_utf8();
            match letter {
                '"' => return Ok(out),
                '\\' => out.push(self.escaped()?),
                letter if letter < ' ' => return Err(self.wrong("no control byte in a string")),
                letter => out.push(letter),
            }
        }
    }

    /// The letter behind a backslash. Half of a surrogate pair is none, and no field has such letters.
    fn escaped(&mut self) -> Result<char, String> {
        let pairs = [
            ("\"", '"'),
            ("\\", '\\'),
            ("/", '/'),
            ("b", '\x08'),
            ("f", '\x0c'),
            ("n", '\n'),
            ("r", '\r'),
            ("t", '\t'),
        ];
        for (word, letter) in pairs {
            if self.passes(word) {
                return Ok(letter);
            }
        }
        let code = self.rest().strip_prefix('u').and_then(|rest| rest.get(..4));
        let letter = code
            .and_then(|code| u32::from_str_radix(code, 16).ok())
            .and_then(char::from_u32);
        match letter {
            Some(letter) => {
                self.at += 5;
                Ok(letter)
            }
            None => Err(self.wrong("an escape such as \\n or \\u000d")),
        }
    }
}
