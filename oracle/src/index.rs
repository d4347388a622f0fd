//! The index of the recorded set, INDEX.txt: a line for each list with its
//! name, its origin, who vouches for it, its bytes and its listing's lines.

use crate::convert::CONVERSIONS;
use crate::voucher::Voucher;
use std::fs;
use std::io;
use std::path::Path;

const FILE: &str = "INDEX.txt";
const CONVERTED: &str = "# conversions: ";
const HEAD: &str = "# name, origin, vouched for by, bytes, lines";

pub struct Row {
    /// A number of four digits, a dash and the list's kind.
    pub name: String,
    pub origin: String,
    pub voucher: Voucher,
    pub bytes: usize,
    pub lines: usize,
}

impl Row {
    pub fn number(&self) -> usize {
        self.name[..4].parse().expect("tested when read")
    }

    pub fn kind(&self) -> &str {
        &self.name[5..]
    }
}

pub struct Index {
    /// How many conversions the lists have been through.
    pub conversions: usize,
    pub rows: Vec<Row>,
}

impl Index {
    /// The index of a folder; an empty one where there is none.
    pub fn read(folder: &Path) -> io::Result<Self> {
        match fs::read_to_string(folder.join(FILE)) {
            Ok(text) => parse(&text).map_err(|line| bad(&line)),
            Err(error) if error.kind() == io::ErrorKind::NotFound => Ok(Self {
                conversions: CONVERSIONS.len(),
                rows: Vec::new(),
            }),
            Err(error) => Err(error),
        }
    }

    pub fn write(&self, folder: &Path) -> io::Result<()> {
        fs::write(folder.join(FILE), self.text())
    }

    pub fn text(&self) -> String {
        let mut text = format!("{CONVERTED}{}\n{HEAD}\n", self.conversions);
        for row in &self.rows {
            let Row {
                name,
                origin,
                voucher,
                bytes,
                lines,
            } = row;
            text += &format!("{name}, {origin}, {}, {bytes}, {lines}\n", voucher.name());
        }
        text
    }
}

fn bad(line: &str) -> io::Error {
    let message = format!("{FILE} has a line that is none of an index: {line}");
    io::Error::new(io::ErrorKind::InvalidData, message)
}

/// The index in a text, or the first line that is wrong.
pub fn parse(text: &str) -> Result<Index, String> {
    let mut index = Index {
        conversions: 0,
        rows: Vec::new(),
    };
    for line in text.lines() {
        if let Some(number) = line.strip_prefix(CONVERTED) {
            index.conversions = number.parse().map_err(|_| line.to_string())?;
        } else if !line.starts_with('#') {
            index.rows.push(row(line).ok_or(line)?);
        }
    }
    Ok(index)
}

fn row(line: &str) -> Option<Row> {
    let fields: Vec<&str> = line.split(", ").collect();
    let [name, origin, voucher, bytes, lines] = fields[..] else {
        return None;
    };
    let (number, kind) = name.split_once('-')?;
    let four_digits = number.len() == 4 && number.bytes().all(|byte| byte.is_ascii_digit());
    (four_digits && !kind.is_empty()).then_some(())?;
    Some(Row {
        name: name.into(),
        origin: origin.into(),
        voucher: Voucher::named(voucher)?,
        bytes: bytes.parse().ok()?,
        lines: lines.parse().ok()?,
    })
}
