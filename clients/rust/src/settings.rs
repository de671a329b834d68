use crate::Error;
use std::net::{Ipv4Addr, SocketAddrV4};
use std::path::Path;

/// A cluster, as a client knows it: a `client.toml`. It holds no secret.
#[derive(Debug, Clone, PartialEq, Eq)]
pub struct Settings {
    cluster: u64,
    t: usize,
    questions: u16,
    chain: bool,
    desks: Vec<SocketAddrV4>,
}

/// A value of a key.
enum Value {
    Number(u64),
    Truth(bool),
    Texts(Vec<String>),
}

impl Settings {
    /// Creates the settings of a cluster with this number, at most t faulty members, this number
    /// of questions, and the desk of each member. It is no chain: see [`Settings::in_chain`].
    ///
    /// # Errors
    ///
    /// [`Error::BadSettings`] if there are no questions or more than 4,096, if the members aren't
    /// more than 3t or are more than 64, or if two have the same desk.
    pub fn new(
        cluster: u64,
        t: usize,
        questions: u16,
        desks: Vec<SocketAddrV4>,
    ) -> Result<Settings, Error> {
        if !(1..=4096).contains(&questions) {
            return bad("questions: must be an integer from 1 to 4096");
        }
        if desks.is_empty() || desks.len() > 64 {
            return bad("n: must be an integer from 1 to 64");
        }
        if t > 21 || desks.len() <= 3 * t {
            return bad("n: must be above 3 times t");
        }
        // One desk under two numbers would count as two members.
        if (1..desks.len()).any(|later| desks[..later].contains(&desks[later])) {
            return bad("desks: must differ");
        }
        Ok(Settings { cluster, t, questions, chain: false, desks })
    }

    /// Returns these settings for members that run a chain of epochs, each epoch a cluster of
    /// `questions` questions.
    pub fn in_chain(self) -> Settings {
        Settings { chain: true, ..self }
    }

    /// Reads the file that `bracha new-cluster` wrote.
    ///
    /// # Errors
    ///
    /// [`Error::BadSettings`] if the file can't be read, or with what is wrong in it.
    pub fn read(path: impl AsRef<Path>) -> Result<Settings, Error> {
        let path = path.as_ref();
        let named = |why: String| Error::BadSettings(format!("{}: {why}", path.display()));
        let text = std::fs::read_to_string(path).map_err(|error| named(error.to_string()))?;
        Settings::parse(&text).map_err(|error| match error {
            Error::BadSettings(why) => named(why),
            other => other,
        })
    }

    /// Reads the text of a client.toml: the keys `cluster`, `n`, `t`, `questions`, each an integer,
    /// `desks`, a list of texts `HOST:PORT`, and perhaps `chain`, `true` or `false`. Other keys of
    /// such values are ignored, and other forms of TOML are refused.
    ///
    /// # Errors
    ///
    /// [`Error::BadSettings`] with what is wrong.
    pub fn parse(text: &str) -> Result<Settings, Error> {
        let keys = keys_of(text)?;
        let find = |key: &str| keys.iter().find(|(name, _)| name == key).map(|(_, value)| value);
        let number = |key: &str, most: u64| match find(key) {
            Some(Value::Number(number)) if *number <= most => Ok(*number),
            _ => bad(&format!("{key}: must be an integer from 0 to {most}")),
        };
        let cluster = number("cluster", u64::MAX)?;
        let n = number("n", 64)? as usize;
        let t = number("t", 21)? as usize;
        let questions = number("questions", 4096)? as u16;
        let chain = match find("chain") {
            None => false,
            Some(Value::Truth(chain)) => *chain,
            Some(_) => return bad("chain: must be true or false"),
        };
        let Some(Value::Texts(desks)) = find("desks") else {
            return bad("desks: must be texts HOST:PORT");
        };
        if desks.len() != n {
            return bad(&format!("desks: must be {n} addresses"));
        }
        let desks: Result<_, _> = desks.iter().map(|desk| address_of(desk)).collect();
        Ok(Settings { chain, ..Settings::new(cluster, t, questions, desks?)? })
    }

    /// Returns the cluster's number.
    pub fn cluster(&self) -> u64 {
        self.cluster
    }

    /// Returns the number of members, 1 to 64.
    pub fn n(&self) -> usize {
        self.desks.len()
    }

    /// Returns the number of members that may be faulty.
    pub fn t(&self) -> usize {
        self.t
    }

    /// Returns the number of questions, 1 to 4,096; in a chain, those of each epoch.
    pub fn questions(&self) -> u16 {
        self.questions
    }

    /// Returns `true` if the members run a chain of epochs. Then questions are slots: any `u64` is
    /// one, and slot S is question S mod Q of epoch S / Q, with Q = [`Settings::questions`].
    pub fn is_chain(&self) -> bool {
        self.chain
    }

    /// Returns `true` if there is such a question.
    pub(crate) fn has(&self, question: u64) -> bool {
        self.chain || question < self.questions.into()
    }

    /// Returns the first slot of this one's epoch. A cluster that is no chain has one epoch.
    pub(crate) fn first_of(&self, question: u64) -> u64 {
        if self.chain { question - question % u64::from(self.questions) } else { 0 }
    }

    /// Returns the members' desks, by number.
    pub fn desks(&self) -> &[SocketAddrV4] {
        &self.desks
    }
}

fn bad<T>(why: &str) -> Result<T, Error> {
    Err(Error::BadSettings(why.to_string()))
}

fn address_of(desk: &str) -> Result<SocketAddrV4, Error> {
    let parsed = || {
        let (host, port) = desk.rsplit_once(':')?;
        let host = if host == "localhost" { Ipv4Addr::LOCALHOST } else { host.parse().ok()? };
        let digits = port.bytes().all(|byte| byte.is_ascii_digit());
        let port: u16 = if digits { port.parse().ok()? } else { 0 };
        (port > 0).then_some(SocketAddrV4::new(host, port))
    };
    parsed().ok_or_else(|| Error::BadSettings(format!("desks: {desk:?} is no HOST:PORT")))
}

/// Returns a line without its comment and without spaces around it.
fn bare(line: &str) -> &str {
    let mut in_text = false;
    let comment = line.find(|sign| {
        in_text ^= sign == '"';
        sign == '#' && !in_text
    });
    line[..comment.unwrap_or(line.len())].trim()
}

/// Returns the keys of a text with their values. A list may go over several lines.
fn keys_of(text: &str) -> Result<Vec<(String, Value)>, Error> {
    let mut keys: Vec<(String, Value)> = Vec::new();
    let mut lines = text.lines().enumerate().map(|(place, line)| (place + 1, bare(line)));
    while let Some((place, line)) = lines.next() {
        if line.is_empty() {
            continue;
        }
        let Some((key, value)) = line.split_once('=') else {
            return bad(&format!("line {place}: must be KEY = VALUE"));
        };
        let (key, mut value) = (key.trim().to_string(), value.trim().to_string());
        while value.starts_with('[') && !value.ends_with(']') {
            let Some((_, more)) = lines.next() else {
                return bad(&format!("line {place}: {key}: has no ]"));
            };
            value.push_str(more);
        }
        if keys.iter().any(|(name, _)| *name == key) {
            return bad(&format!("line {place}: {key}: stands twice"));
        }
        let Some(value) = value_in(&value) else {
            let one_of = "an integer, true, false or a list of texts";
            return bad(&format!("line {place}: {key}: must be {one_of}"));
        };
        keys.push((key, value));
    }
    Ok(keys)
}

/// Returns the value in a text: an integer, a truth, or a list of texts without escapes.
fn value_in(text: &str) -> Option<Value> {
    if let "true" | "false" = text {
        return Some(Value::Truth(text == "true"));
    }
    let Some(inner) = text.strip_prefix('[') else {
        let digits = !text.is_empty() && text.bytes().all(|byte| byte.is_ascii_digit());
        let plain = text == "0" || !text.starts_with('0');
        return if digits && plain { text.parse().ok().map(Value::Number) } else { None };
    };
    let mut left = inner.strip_suffix(']')?.trim();
    let mut texts = Vec::new();
    while !left.is_empty() {
        let (text, after) = left.strip_prefix('"')?.split_once('"')?;
        if text.contains('\\') {
            return None;
        }
        texts.push(text.to_string());
        left = match after.trim_start().strip_prefix(',') {
            Some(more) => more.trim_start(),
            None if after.trim().is_empty() => "",
            None => return None,
        };
    }
    Some(Value::Texts(texts))
}

#[cfg(test)]
mod tests {
    use super::Settings;

    const WHOLE: [(&str, &str); 5] = [
        ("cluster", "18446744073709551615"),
        ("n", "4"),
        ("t", "1 # at most"),
        ("questions", "64"),
        (
            "desks",
            "[ # by number\n \"localhost:1\",\n \"127.0.0.1:2\", \"10.0.0.2:2\",\n \"10.0.0.1:65535\",\n]",
        ),
    ];

    fn text(key: &str, value: &str) -> String {
        let other = |(name, old): (&str, &str)| match (name == key, value) {
            (true, "") => String::new(),
            (true, _) => format!("{name} = {value}\n"),
            (false, _) => format!("{name} = {old}\n"),
        };
        format!("# a cluster\n\n{}", WHOLE.map(other).concat())
    }

    #[test]
    fn right() {
        let settings = Settings::parse(&text("", "")).unwrap();
        assert_eq!((settings.n(), settings.t(), settings.questions()), (4, 1, 64));
        assert_eq!(settings.cluster(), u64::MAX);
        assert_eq!(settings.desks()[0].to_string(), "127.0.0.1:1");
        let others = "other = 7\nmore = [\"a\"]\nanother = true\n";
        assert!(Settings::parse(&(text("", "") + others)).is_ok());
    }

    #[test]
    fn chains() {
        let read = |line: &str| Settings::parse(&(text("", "") + line));
        let (plain, chain) = (read("").unwrap(), read("chain = true # of epochs\n").unwrap());
        assert_eq!(read("chain = false\n"), Ok(plain.clone()));
        assert_eq!((plain.is_chain(), chain.is_chain()), (false, true));
        assert_eq!(plain.clone().in_chain(), chain);
        assert_eq!([63, 64, u64::MAX].map(|it| plain.has(it)), [true, false, false]);
        assert_eq!([63, 64, u64::MAX].map(|it| chain.has(it)), [true; 3]);
        assert_eq!([63, 64, u64::MAX].map(|it| chain.first_of(it)), [0, 64, u64::MAX - 63]);
        for wrong in ["1", "0", "\"true\"", "True", "TRUE", "[]", "[true]", "yes", ""] {
            assert!(read(&format!("chain = {wrong}\n")).is_err(), "{wrong}");
        }
        assert!(read("chain = true\nchain = true\n").is_err());
    }

    #[test]
    fn wrong() {
        let rows: [(&str, &[&str]); 5] = [
            ("cluster", &["", "-1", "\"7\"", "7.0", "18446744073709551616", "07", "+7"]),
            ("n", &["", "3", "5", "65", "true"]),
            ("t", &["", "2", "22", "false"]),
            ("questions", &["", "0", "4097"]),
            ("desks", &["", "\"a\"", "[\"127.0.0.1:1\"]", "[", "[\"a\" \"b\"]", "[1, 2, 3, 4]"]),
        ];
        for (key, values) in rows {
            for value in values {
                assert!(Settings::parse(&text(key, value)).is_err(), "{key} = {value}");
            }
        }
        for first in ["localhost:2", "host:1", "10.0.0.1:0", "10.0.0.1:+1", "10.0.0.1", "[::1]:1"] {
            let desks = format!("[\"{first}\", \"127.0.0.1:2\", \"10.0.0.2:2\", \"10.0.0.9:1\"]");
            assert!(Settings::parse(&text("desks", &desks)).is_err(), "{first}");
        }
        assert!(Settings::parse(&(text("", "") + "n = 4\n")).is_err());
        assert!(Settings::parse(&(text("", "") + "[table]\n")).is_err());
        assert!(Settings::read("/nowhere/client.toml").is_err());
    }
}
