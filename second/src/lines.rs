//! Cases and answers as lines: bytes in lowercase hex, fields after spaces.

use std::io::{self, BufRead, Write};

/// Hands the fields of every line to `answer`; a field may be empty.
pub fn each_case<W: Write, const FIELDS: usize>(
    mut input: impl BufRead,
    mut output: W,
    answer: impl Fn([&[u8]; FIELDS], &mut W) -> io::Result<()>,
) -> io::Result<()> {
    let mut line = Vec::new();
    while input.read_until(b'\n', &mut line)? > 0 {
        let words = line.strip_suffix(b"\n").unwrap_or(&line).split(is_space);
        let fields: Vec<Vec<u8>> = words.map(decode_hex).collect::<io::Result<_>>()?;
        let fields: Vec<&[u8]> = fields.iter().map(Vec::as_slice).collect();
        match fields.try_into() {
            Ok(fields) => answer(fields, &mut output)?,
            Err(_) => return Err(bad_input("another number of fields")),
        }
        line.clear();
    }
    output.flush()
}

fn is_space(byte: &u8) -> bool {
    *byte == b' '
}

/// The bytes that the hex digits stand for.
fn decode_hex(digits: &[u8]) -> io::Result<Vec<u8>> {
    let mut bytes = Vec::with_capacity(digits.len() / 2);
    for pair in digits.chunks(2) {
        match *pair {
            [high, low] => bytes.push(16 * digit(high)? + digit(low)?),
            _ => return Err(bad_input("an odd number of hex digits")),
        }
    }
    Ok(bytes)
}

fn digit(byte: u8) -> io::Result<u8> {
    match byte {
        b'0'..=b'9' => Ok(byte - b'0'),
        b'a'..=b'f' => Ok(byte - b'a' + 10),
        _ => Err(bad_input("not a lowercase hex digit")),
    }
}

/// What a line that is no case ends the batch with.
pub fn bad_input(message: &str) -> io::Error {
    io::Error::new(io::ErrorKind::InvalidData, message)
}

/// Two digits for each byte; no bytes are a dash, so that no field is empty.
pub fn hex(bytes: &[u8]) -> String {
    const DIGITS: &[u8; 16] = b"0123456789abcdef";
    let mut text = String::with_capacity(2 * bytes.len());
    for byte in bytes {
        text.push(char::from(DIGITS[usize::from(byte / 16)]));
        text.push(char::from(DIGITS[usize::from(byte % 16)]));
    }
    match bytes {
        [] => "-".to_string(),
        _ => text,
    }
}
