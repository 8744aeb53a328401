//! Bytes as text: plain hex for messages, and the vectors' writing, in which `(N*bb)` stands for N times the
//! byte bb and the word `empty` for no bytes.

/// Runs of at least so many equal bytes are written as `(N*bb)`.
const SHORTEST_RUN: usize = 6;
/// No buffer of document 01 is longer; a greater repetition is a slip, not a reason to fill the memory.
const LONGEST_RUN: usize = 1 << 20;

pub fn plain(bytes: &[u8]) -> String {
    bytes.iter().map(|byte| format!("{byte:02x}")).collect()
}

pub fn write(bytes: &[u8]) -> String {
    if bytes.is_empty() {
        return "empty".to_string();
    }
    let mut text = String::new();
    for run in bytes.chunk_by(|left, right| left == right) {
        if run.len() >= SHORTEST_RUN {
            text += &format!("({}*{:02x})", run.len(), run[0]);
        } else {
            text += &plain(run);
        }
    }
    text
}

pub fn read(text: &str) -> Result<Vec<u8>, String> {
    if text == "empty" {
        return Ok(Vec::new());
    }
    if text.is_empty() {
        return Err("no bytes, and not the word `empty`".to_string());
    }
    let mut bytes = Vec::new();
    let mut rest = text;
    while !rest.is_empty() {
        let (count, byte, behind) = read_run(rest)?;
        bytes.resize(bytes.len() + count, byte);
        rest = behind;
    }
    Ok(bytes)
}

/// The first `bb` or `(N*bb)` of the text: how often, which byte, and the text behind it.
fn read_run(text: &str) -> Result<(usize, u8, &str), String> {
    let Some(inner) = text.strip_prefix('(') else {
        let (byte, behind) = text.split_at_checked(2).ok_or_else(|| odd(text))?;
        return Ok((1, read_byte(byte)?, behind));
    };
    let (run, behind) = inner.split_once(')').ok_or("no `)` behind `(`")?;
    let (count, byte) = run.split_once('*').ok_or_else(|| odd(run))?;
    match read_number(count)? {
        count @ 1..=LONGEST_RUN => Ok((count, read_byte(byte)?, behind)),
        count => Err(format!("{count} repetitions")),
    }
}

fn read_byte(text: &str) -> Result<u8, String> {
    let lower = |c: u8| c.is_ascii_digit() || (b'a'..=b'f').contains(&c);
    if text.len() != 2 || !text.bytes().all(lower) {
        return Err(odd(text));
    }
    u8::from_str_radix(text, 16).map_err(|_| odd(text))
}

/// A decimal number: digits alone, no sign.
pub fn read_number(text: &str) -> Result<usize, String> {
    let digits = !text.is_empty() && text.bytes().all(|c| c.is_ascii_digit());
    let number = text.parse().ok().filter(|_| digits);
    number.ok_or_else(|| format!("`{text}` is not a number"))
}

fn odd(text: &str) -> String {
    format!("`{text}` is not a byte in lower-case hex")
}

#[cfg(test)]
mod tests {
    use super::*;

    #[test]
    fn reads_what_it_writes() {
        for bytes in [
            vec![],
            vec![0; 5],
            vec![0; 6],
            [vec![1, 2], vec![255; 4096]].concat(),
        ] {
            assert_eq!(read(&write(&bytes)), Ok(bytes));
        }
        assert_eq!(write(&[0; 6]), "(6*00)");
        assert_eq!(read("12(3*ab)00"), Ok(vec![0x12, 0xab, 0xab, 0xab, 0]));
    }

    #[test]
    fn refuses_what_is_not_in_the_form() {
        let bad = [
            "", "1", "AB", "zz", "(3*ab", "(ab)", "(0*ab)", "(*ab)", "(3*abc)", "(+3*ab)",
        ];
        for text in bad
            .into_iter()
            .chain(["ab ", " ab", "ab)", "emptyab", "é", "(99999999*00)"])
        {
            assert!(read(text).is_err(), "{text}");
        }
    }
}
