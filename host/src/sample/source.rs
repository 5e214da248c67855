//! The source of a sample ROM: rows that carry their address and bytes beside their text. Its first lines say how it is written.

use std::collections::HashMap;

/// What a name stands for: a number as it is written, or the address of a row.
enum Value {
    Number(String),
    Label(u16),
}

/// A row of the ROM, its text with names as written.
pub struct Row {
    pub address: u16,
    pub bytes: Vec<u8>,
    pub text: String,
}

impl Row {
    /// The first word of the text: a mnemonic, or DEFB, DEFW, DEFM.
    pub fn word(&self) -> &str {
        self.text.split(' ').next().unwrap_or("")
    }

    pub fn is_data(&self) -> bool {
        matches!(self.word(), "DEFB" | "DEFW" | "DEFM")
    }
}

#[derive(Default)]
pub struct Source {
    pub rows: Vec<Row>,
    names: HashMap<String, Value>,
    entries: Vec<String>,
}

impl Source {
    pub fn read(text: &str) -> Result<Source, String> {
        let mut source = Source::default();
        for (n, line) in text.lines().enumerate() {
            let line = line.split(';').next().unwrap_or("").trim_end();
            if !line.is_empty() {
                let error = |error| format!("line {}: {error}", n + 1);
                source.line(line).map_err(error)?;
            }
        }
        Ok(source)
    }

    fn line(&mut self, line: &str) -> Result<(), String> {
        if let Some(label) = line.strip_prefix("ENTRY ") {
            self.entries.push(label.into());
            return Ok(());
        }
        if let Some((name, number)) = line.split_once('=') {
            return self.name(name.trim(), Value::Number(number.trim().into()));
        }
        self.row(line)
    }

    fn name(&mut self, name: &str, value: Value) -> Result<(), String> {
        if !is_name(name) || self.names.insert(name.into(), value).is_some() {
            return Err(format!("'{name}' is no name, or stands twice"));
        }
        Ok(())
    }

    /// Address, bytes, perhaps a label, text. Rows follow one another from 0 on.
    fn row(&mut self, line: &str) -> Result<(), String> {
        let (address, rest) = line.split_once(' ').ok_or("no row")?;
        let address = u16::from_str_radix(address, 16).map_err(|error| error.to_string())?;
        if address as usize != self.end() {
            return Err(format!("the row before ends at {:04X}", self.end()));
        }
        let (bytes, mut text) = leading_bytes(rest);
        if let Some((label, behind)) = text.split_once(':') {
            self.name(label, Value::Label(address))?;
            text = behind.trim_start();
        }
        if bytes.is_empty() || text.is_empty() {
            return Err("a row needs bytes and a text".into());
        }
        let text = text.into();
        self.rows.push(Row {
            address,
            bytes,
            text,
        });
        Ok(())
    }

    fn end(&self) -> usize {
        let last = self.rows.last();
        last.map_or(0, |row| row.address as usize + row.bytes.len())
    }

    /// The row's text with numbers in place of names.
    pub fn resolved(&self, row: &Row) -> Result<String, String> {
        if row.word() == "DEFM" {
            return Ok(row.text.clone());
        }
        let mut text = String::new();
        for piece in row.text.split_inclusive(|c| !in_word(c)) {
            let word = piece.trim_end_matches(|c| !in_word(c));
            text += &match is_name(word) {
                true => self.number(word, row)?,
                false => word.into(),
            };
            text += &piece[word.len()..];
        }
        Ok(text)
    }

    /// What a name is in a row's text.
    fn number(&self, name: &str, row: &Row) -> Result<String, String> {
        match (self.names.get(name), row.word()) {
            (Some(Value::Number(number)), _) => Ok(number.clone()),
            (Some(Value::Label(place)), "JR" | "DJNZ") => {
                Ok(format!("{:+}", *place as i32 - row.address as i32))
            }
            (Some(Value::Label(place)), "RST") => Ok(format!("{place:02X}")),
            (Some(Value::Label(place)), _) => Ok(format!("{place:04X}")),
            (None, _) => Err(format!("no name '{name}'")),
        }
    }

    /// The addresses of the entries, in the source's order.
    pub fn entries(&self) -> Result<Vec<u16>, String> {
        let address = |label: &String| match self.names.get(label) {
            Some(Value::Label(place)) => Ok(*place),
            _ => Err(format!("no label '{label}'")),
        };
        self.entries.iter().map(address).collect()
    }
}

fn in_word(c: char) -> bool {
    c.is_ascii_alphanumeric() || c == '_'
}

fn is_name(word: &str) -> bool {
    word.starts_with(|c: char| c.is_ascii_lowercase()) && word.chars().all(in_word)
}

/// The words of two hex digits that a text begins with, and what is behind them.
fn leading_bytes(text: &str) -> (Vec<u8>, &str) {
    let (mut bytes, mut rest) = (vec![], text.trim_start());
    loop {
        let (word, behind) = rest.split_once(' ').unwrap_or((rest, ""));
        match u8::from_str_radix(word, 16) {
            Ok(byte) if word.len() == 2 => bytes.push(byte),
            _ => return (bytes, rest),
        }
        rest = behind.trim_start();
    }
}
