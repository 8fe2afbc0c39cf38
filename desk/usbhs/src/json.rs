//! JSON, as much as is needed to write.

use std::fmt::{self, Display, Write};

#[derive(Clone, Debug, PartialEq)]
pub enum Json {
    Null,
    Bool(bool),
    Number(u64),
    Text(String),
    List(Vec<Json>),
    Object(Vec<(&'static str, Json)>),
}

impl From<bool> for Json {
    fn from(b: bool) -> Self {
        Json::Bool(b)
    }
}

impl From<&str> for Json {
    fn from(s: &str) -> Self {
        Json::Text(s.into())
    }
}

impl From<String> for Json {
    fn from(s: String) -> Self {
        Json::Text(s)
    }
}

impl<T: Into<Json>> From<Option<T>> for Json {
    fn from(o: Option<T>) -> Self {
        o.map_or(Json::Null, Into::into)
    }
}

impl<T: Into<Json>> From<Vec<T>> for Json {
    fn from(all: Vec<T>) -> Self {
        Json::List(all.into_iter().map(Into::into).collect())
    }
}

macro_rules! numbers {
    ($($t:ty)*) => { $(impl From<$t> for Json {
        fn from(n: $t) -> Self {
            Json::Number(n as u64)
        }
    })* };
}
numbers!(u8 u16 u32 u64 usize);

impl Display for Json {
    fn fmt(&self, f: &mut fmt::Formatter) -> fmt::Result {
        match self {
            Json::Null => f.write_str("null"),
            Json::Bool(b) => write!(f, "{b}"),
            Json::Number(n) => write!(f, "{n}"),
            Json::Text(s) => text(f, s),
            Json::List(all) => {
                f.write_char('[')?;
                for (i, one) in all.iter().enumerate() {
                    write!(f, "{}{one}", if i == 0 { "" } else { "," })?;
                }
                f.write_char(']')
            }
            Json::Object(all) => {
                f.write_char('{')?;
                for (i, (name, one)) in all.iter().enumerate() {
                    write!(f, "{}\"{name}\":{one}", if i == 0 { "" } else { "," })?;
                }
                f.write_char('}')
            }
        }
    }
}

fn text(f: &mut fmt::Formatter, s: &str) -> fmt::Result {
    f.write_char('"')?;
    for c in s.chars() {
        match c {
            '"' | '\\' => write!(f, "\\{c}")?,
            c if (c as u32) < 0x20 => write!(f, "\\u{:04x}", c as u32)?,
            c => f.write_char(c)?,
        }
    }
    f.write_char('"')
}

#[cfg(test)]
mod tests {
    use super::Json;

    #[test]
    fn written() {
        let all = Json::Object(vec![
            ("name", "a \"b\"\n".into()),
            ("none", Json::from(None::<u32>)),
            ("list", vec![1u32, 2].into()),
            ("flag", true.into()),
        ]);
        assert_eq!(all.to_string(), r#"{"name":"a \"b\"\u000a","none":null,"list":[1,2],"flag":true}"#);
    }
}
