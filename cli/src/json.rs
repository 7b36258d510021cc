//! JSON documents, written field by field.
#![forbid(unsafe_code)]

use std::fmt::{Display, Write};

/// An object whose fields stand in the order in which they were added.
#[derive(Default)]
pub struct Object {
    fields: String,
}

impl Object {
    /// An object without fields.
    pub fn new() -> Object {
        Object::default()
    }

    /// Adds a number, a truth value, or JSON text that is made already.
    pub fn value(mut self, name: &str, value: impl Display) -> Object {
        let comma = if self.fields.is_empty() { "" } else { "," };
        // a String takes all that is written to it
        let _ = write!(self.fields, "{comma}\"{name}\":{value}");
        self
    }

    /// Adds a value, or null where there is none.
    pub fn option(self, name: &str, value: Option<impl Display>) -> Object {
        match value {
            Some(value) => self.value(name, value),
            None => self.value(name, "null"),
        }
    }

    /// Adds a text.
    pub fn text(self, name: &str, text: &str) -> Object {
        let text = quoted(text);
        self.value(name, text)
    }

    /// Adds an array of values.
    pub fn list(self, name: &str, values: impl IntoIterator<Item = impl Display>) -> Object {
        let values: Vec<String> = values.into_iter().map(|value| value.to_string()).collect();
        self.value(name, format_args!("[{}]", values.join(",")))
    }

    /// The object as a text.
    pub fn end(self) -> String {
        format!("{{{}}}", self.fields)
    }
}

/// A text between quotation marks.
pub fn quoted(text: &str) -> String {
    let mut quoted = String::from("\"");
    for character in text.chars() {
        match character {
            '"' | '\\' => quoted.extend(['\\', character]),
            '\n' => quoted.push_str("\\n"),
            '\t' => quoted.push_str("\\t"),
            control if control < ' ' => {
                let _ = write!(quoted, "\\u{:04x}", control as u32);
            }
            other => quoted.push(other),
        }
    }
    quoted.push('"');
    quoted
}

#[cfg(test)]
mod tests {
    use super::*;

    #[test]
    fn texts() {
        assert_eq!(quoted("a \"b\" \\ é"), r#""a \"b\" \\ é""#);
        assert_eq!(quoted("\n\t\r\u{1f}"), r#""\n\t\u000d\u001f""#);
    }

    #[test]
    fn objects() {
        assert_eq!(Object::new().end(), "{}");
        let object = Object::new()
            .value("a", 1)
            .text("b", "x")
            .option("c", None::<u32>)
            .option("d", Some(2))
            .list("e", [1, 2])
            .list("f", [0; 0]);
        assert_eq!(
            object.end(),
            r#"{"a":1,"b":"x","c":null,"d":2,"e":[1,2],"f":[]}"#
        );
    }
}
