//! Reads reports of the library. They are JSON of one form, so that no crate for JSON is needed.
use crate::{Error, Location};

/// The errors of a report.
pub(crate) fn read_report(text: &[u8]) -> Vec<Error> {
    let text = std::str::from_utf8(text).expect("a report is UTF-8");
    let mut reader = Reader { rest: text };
    reader.list(Reader::error)
}

struct Reader<'t> {
    rest: &'t str,
}

impl Reader<'_> {
    // The next character that is not white space, which is taken.
    fn next(&mut self) -> Option<char> {
        let rest = self.rest.trim_start();
        let found = rest.chars().next()?;
        self.rest = &rest[found.len_utf8()..];
        Some(found)
    }

    fn peek(&self) -> Option<char> {
        self.rest.trim_start().chars().next()
    }

    // A list of items.
    fn list<T>(&mut self, item: fn(&mut Self) -> T) -> Vec<T> {
        let mut items = Vec::new();
        self.next();
        while !matches!(self.peek(), None | Some(']')) {
            items.push(item(self));
            if self.peek() == Some(',') {
                self.next();
            }
        }
        self.next();
        items
    }

    // The members of an object, each handed on with its name.
    fn members(&mut self, mut member: impl FnMut(&mut Self, &str)) {
        self.next();
        while !matches!(self.peek(), None | Some('}')) {
            let name = self.string();
            self.next();
            member(self, &name);
            if self.peek() == Some(',') {
                self.next();
            }
        }
        self.next();
    }

    fn error(&mut self) -> Error {
        let mut error = Error {
            message: String::new(),
            locations: Vec::new(),
            path: None,
        };
        self.members(|reader, name| match name {
            "locations" => error.locations = reader.list(Reader::location),
            "message" => error.message = reader.string(),
            _ => error.path = Some(reader.string()),
        });
        error
    }

    fn location(&mut self) -> Location {
        let mut location = Location { line: 0, column: 0 };
        self.members(|reader, name| {
            let number = reader.number();
            if name == "line" {
                location.line = number;
            } else {
                location.column = number;
            }
        });
        location
    }

    fn number(&mut self) -> usize {
        let rest = self.rest.trim_start();
        let length = rest.bytes().take_while(u8::is_ascii_digit).count();
        self.rest = &rest[length..];
        rest[..length].parse().expect("a report has numbers")
    }

    fn string(&mut self) -> String {
        self.next();
        let mut text = String::new();
        let mut characters = self.rest.chars();
        while let Some(found) = characters.next() {
            match found {
                '"' => break,
                '\\' => text.push(escaped(&mut characters)),
                _ => text.push(found),
            }
        }
        self.rest = characters.as_str();
        text
    }
}

// What stands after a backslash. The library escapes no character above U+001F by its number.
fn escaped(characters: &mut std::str::Chars<'_>) -> char {
    match characters.next() {
        Some('b') => '\u{8}',
        Some('f') => '\u{c}',
        Some('n') => '\n',
        Some('r') => '\r',
        Some('t') => '\t',
        Some('u') => {
            let digits: String = characters.by_ref().take(4).collect();
            u32::from_str_radix(&digits, 16)
                .ok()
                .and_then(char::from_u32)
                .unwrap_or('\u{fffd}')
        }
        Some(other) => other,
        None => '\u{fffd}',
    }
}

#[cfg(test)]
mod tests {
    use super::{read_report, Error, Location};

    fn error(message: &str, locations: &[(usize, usize)], path: Option<&str>) -> Error {
        let locations = locations
            .iter()
            .map(|&(line, column)| Location { line, column });
        Error {
            message: message.to_owned(),
            locations: locations.collect(),
            path: path.map(str::to_owned),
        }
    }

    #[test]
    fn empty_lists() {
        assert_eq!(read_report(b"[]"), []);
        assert_eq!(read_report(b" [ ]\n"), []);
    }

    #[test]
    fn strings() {
        let spelled = r#"[{"message": "\"\\\/\b\f\n\r\t\u001Fé😀", "locations": []}]"#;
        let meant = "\"\\/\u{8}\u{c}\n\r\t\u{1f}é😀";
        assert_eq!(read_report(spelled.as_bytes()), [error(meant, &[], None)]);
    }

    #[test]
    fn several() {
        let spelled = r#"[{"locations": [{"column": 2, "line": 1}, {"line": 34, "column": 567}],
            "message": "a"}, {"message": "b", "locations": [], "path": "0"}]"#;
        let meant = [
            error("a", &[(1, 2), (34, 567)], None),
            error("b", &[], Some("0")),
        ];
        assert_eq!(read_report(spelled.as_bytes()), meant);
    }
}
