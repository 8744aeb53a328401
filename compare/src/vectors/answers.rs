//! The answers of a recorded sequence: what a call's `<` lines say, read and written.

use super::calls::Call;
use super::fields::{read_flag, read_key, Fields};
use crate::hex;
use crate::oracle::Key;

#[derive(Debug, PartialEq)]
pub enum Answer {
    Refused(u8),
    /// `open`, `next`, `uncut`
    Accepted,
    /// `ingest`: offset and length of the overflow cell that was dropped, if one is reported.
    Report(Option<(usize, usize)>),
    /// `digest`: the cutoff if it waits for a merge, and how many pages it asks for.
    Leaves {
        pages: Vec<Vec<u8>>,
        tickets: Vec<u8>,
        wait: Option<Key>,
        asked: usize,
    },
    /// `twin`
    Pending(Pending),
    Dump {
        entries: Vec<Entry>,
        pending: Vec<Pending>,
    },
    /// `scope`
    Truth(bool),
    /// `separator`, `page_key`, `separate`
    Key(Key),
    /// `page_value`, `page_get`: offset, length and flag, or absent.
    Cell(Option<(usize, usize, bool)>),
    /// `page_values_size`
    Size(usize),
}

impl Answer {
    /// The number by which the call was refused, 0 where it was accepted.
    pub fn refusal(&self) -> u8 {
        match self {
            Answer::Refused(number) => *number,
            _ => 0,
        }
    }
}

#[derive(Clone, Debug, PartialEq)]
pub enum Holder {
    Store,
    Page,
}

#[derive(Clone, Debug, PartialEq)]
pub struct Pending {
    pub holder: Holder,
    pub offset: usize,
    pub length: usize,
    pub flag: bool,
    pub key: Key,
}

#[derive(Debug, PartialEq)]
pub enum Entry {
    Insert {
        offset: usize,
        length: usize,
        flag: bool,
        key: Key,
    },
    Chunk {
        from: usize,
        to: usize,
        values: usize,
    },
}

/// A `<` line without its mark, with its number in the file.
pub type Line<'a> = (usize, &'a str);

/// Reads the `<` lines of a call. An error comes with the number of the line that it is about.
pub fn read(call: &Call, lines: &[Line]) -> Result<Answer, (usize, String)> {
    let mut reader = Reader { lines, at: 0 };
    reader
        .answer(call)
        .and_then(|answer| reader.end(answer))
        .map_err(|why| (reader.line_number(), why))
}

struct Reader<'a> {
    lines: &'a [Line<'a>],
    // how many lines were begun
    at: usize,
}

impl<'a> Reader<'a> {
    /// The line that was begun last, or that could not be had.
    fn line_number(&self) -> usize {
        let last = self.lines.len().saturating_sub(1);
        self.lines[self.at.saturating_sub(1).min(last)].0
    }

    fn end(&mut self, answer: Answer) -> Result<Answer, String> {
        match self.next() {
            None => Ok(answer),
            Some((first, _)) => Err(format!("`{first}` does not belong to this answer")),
        }
    }

    fn next(&mut self) -> Option<(&'a str, Fields<'a>)> {
        let (_, line) = self.lines.get(self.at)?;
        self.at += 1;
        Some(Fields::split(line))
    }

    /// The next line, which must begin with this word.
    fn expect(&mut self, word: &str) -> Result<Fields<'a>, String> {
        match self.next() {
            Some((first, fields)) if first == word => Ok(fields),
            Some((first, _)) => Err(format!("`{first}` where `{word}` is due")),
            None => Err(format!("no line `{word}`")),
        }
    }

    fn peek(&self) -> Option<&'a str> {
        let (_, line) = self.lines.get(self.at)?;
        Some(Fields::split(line).0)
    }

    fn answer(&mut self, call: &Call) -> Result<Answer, String> {
        if let Call::Dump = call {
            return self.dump();
        }
        if self.peek() == Some("refused") {
            return read_refused(self.expect("refused")?);
        }
        let mut fields = self.expect("ok")?;
        let answer = match call {
            Call::Digest { .. } => return self.leaves(fields),
            Call::Open { .. } | Call::Next { .. } | Call::Uncut { .. } => Answer::Accepted,
            Call::Ingest { .. } => Answer::Report(read_report(fields.text("report")?)?),
            Call::Twin { .. } => Answer::Pending(read_pending(&mut fields)?),
            Call::Scope { .. } => Answer::Truth(read_truth(fields.next()?)?),
            Call::PageValue { .. } | Call::PageGet { .. } => {
                Answer::Cell(read_cell(fields.next()?)?)
            }
            Call::PageValuesSize { .. } => Answer::Size(hex::read_number(fields.next()?)?),
            // separator, page_key, separate
            _ => Answer::Key(read_key(fields.next()?)?),
        };
        fields.end()?;
        Ok(answer)
    }

    fn leaves(&mut self, mut fields: Fields) -> Result<Answer, String> {
        let count = fields.number("leaves")?;
        let wait = if fields.word("done") {
            None
        } else {
            Some(fields.key("wait")?)
        };
        let asked = fields.number("asked")?;
        fields.end()?;
        let mut pages = Vec::new();
        for _ in 0..count {
            pages.push(read_only_bytes(self.expect("page")?)?);
        }
        let tickets = read_only_bytes(self.expect("tickets")?)?;
        Ok(Answer::Leaves {
            pages,
            tickets,
            wait,
            asked,
        })
    }

    fn dump(&mut self) -> Result<Answer, String> {
        let mut entries = Vec::new();
        while self.peek() == Some("entry") {
            entries.push(read_entry(self.expect("entry")?)?);
        }
        let mut pending = Vec::new();
        while self.peek() == Some("pending") {
            let mut fields = self.expect("pending")?;
            pending.push(read_pending(&mut fields)?);
            fields.end()?;
        }
        self.expect("end")?.end()?;
        Ok(Answer::Dump { entries, pending })
    }
}

fn read_refused(mut fields: Fields) -> Result<Answer, String> {
    let number = hex::read_number(fields.next()?)?;
    fields.end()?;
    match number {
        1..=17 => Ok(Answer::Refused(number as u8)),
        _ => Err(format!("{number} is no refusal of document 01")),
    }
}

fn read_report(text: &str) -> Result<Option<(usize, usize)>, String> {
    if text == "none" {
        return Ok(None);
    }
    let parts: Vec<&str> = text.split(',').collect();
    let [offset, length] = parts[..] else {
        return Err(format!("`{text}` is not OFFSET,LENGTH"));
    };
    Ok(Some((hex::read_number(offset)?, hex::read_number(length)?)))
}

fn read_cell(text: &str) -> Result<Option<(usize, usize, bool)>, String> {
    if text == "absent" {
        return Ok(None);
    }
    let parts: Vec<&str> = text.split(',').collect();
    let [offset, length, flag] = parts[..] else {
        return Err(format!("`{text}` is not OFFSET,LENGTH,FLAG"));
    };
    let place = (hex::read_number(offset)?, hex::read_number(length)?);
    Ok(Some((place.0, place.1, read_flag(flag)?)))
}

fn read_truth(text: &str) -> Result<bool, String> {
    match text {
        "true" => Ok(true),
        "false" => Ok(false),
        _ => Err(format!("`{text}` is neither true nor false")),
    }
}

fn read_only_bytes(mut fields: Fields) -> Result<Vec<u8>, String> {
    let bytes = hex::read(fields.next()?)?;
    fields.end()?;
    Ok(bytes)
}

fn read_pending(fields: &mut Fields) -> Result<Pending, String> {
    let holder = match fields.text("holder")? {
        "store" => Holder::Store,
        "page" => Holder::Page,
        other => return Err(format!("`{other}` is no holder")),
    };
    Ok(Pending {
        holder,
        offset: fields.number("off")?,
        length: fields.number("len")?,
        flag: fields.flag("flag")?,
        key: fields.key("key")?,
    })
}

fn read_entry(mut fields: Fields) -> Result<Entry, String> {
    let entry = match fields.next()? {
        "insert" => Entry::Insert {
            offset: fields.number("off")?,
            length: fields.number("len")?,
            flag: fields.flag("flag")?,
            key: fields.key("key")?,
        },
        "chunk" => Entry::Chunk {
            from: fields.number("from")?,
            to: fields.number("to")?,
            values: fields.number("values")?,
        },
        other => return Err(format!("`{other}` is no entry")),
    };
    fields.end()?;
    Ok(entry)
}

impl Answer {
    /// The answer's lines, without their marks.
    pub fn lines(&self) -> Vec<String> {
        let line = match self {
            Answer::Leaves {
                pages,
                tickets,
                wait,
                asked,
            } => return write_leaves(pages, tickets, wait, *asked),
            Answer::Dump { entries, pending } => return write_dump(entries, pending),
            Answer::Refused(number) => format!("refused {number}"),
            Answer::Accepted => "ok".to_string(),
            Answer::Report(None) => "ok report=none".to_string(),
            Answer::Report(Some((offset, length))) => format!("ok report={offset},{length}"),
            Answer::Pending(pending) => format!("ok {}", write_pending(pending)),
            Answer::Truth(truth) => format!("ok {truth}"),
            Answer::Key(key) => format!("ok {}", hex::write(key)),
            Answer::Cell(None) => "ok absent".to_string(),
            Answer::Cell(Some((offset, length, flag))) => {
                format!("ok {offset},{length},{}", *flag as u8)
            }
            Answer::Size(size) => format!("ok {size}"),
        };
        vec![line]
    }
}

fn write_leaves(
    pages: &[Vec<u8>],
    tickets: &[u8],
    wait: &Option<Key>,
    asked: usize,
) -> Vec<String> {
    let count = pages.len();
    let turn = match wait {
        None => "done".to_string(),
        Some(cutoff) => format!("wait={}", hex::write(cutoff)),
    };
    let mut lines = vec![format!("ok leaves={count} {turn} asked={asked}")];
    lines.extend(
        pages
            .iter()
            .map(|page| format!("page {}", hex::write(page))),
    );
    lines.push(format!("tickets {}", hex::write(tickets)));
    lines
}

fn write_dump(entries: &[Entry], pending: &[Pending]) -> Vec<String> {
    let mut lines: Vec<String> = entries.iter().map(write_entry).collect();
    lines.extend(
        pending
            .iter()
            .map(|record| format!("pending {}", write_pending(record))),
    );
    lines.push("end".to_string());
    lines
}

fn write_entry(entry: &Entry) -> String {
    match entry {
        Entry::Insert {
            offset,
            length,
            flag,
            key,
        } => {
            let (flag, key) = (*flag as u8, hex::write(key));
            format!("entry insert off={offset} len={length} flag={flag} key={key}")
        }
        Entry::Chunk { from, to, values } => {
            format!("entry chunk from={from} to={to} values={values}")
        }
    }
}

fn write_pending(pending: &Pending) -> String {
    let holder = match pending.holder {
        Holder::Store => "store",
        Holder::Page => "page",
    };
    let (offset, length) = (pending.offset, pending.length);
    let (flag, key) = (pending.flag as u8, hex::write(&pending.key));
    format!("holder={holder} off={offset} len={length} flag={flag} key={key}")
}
