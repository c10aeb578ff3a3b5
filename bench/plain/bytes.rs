//! The bytes of a stream, and the smallest pieces of the format: numbers, words, strings and signs, with blanks before them.

use std::io::{ErrorKind, Read};

/// What ends a run, as it is told.
pub type Fault = Box<dyn std::error::Error>;

pub struct Bytes {
    input: Box<dyn Read>,
    buffer: Vec<u8>,
    /// The place in the buffer, how many bytes there were before it, and where the last piece began.
    place: usize,
    before: u64,
    piece: u64,
    has_failed: bool,
    /// The last word or string.
    pub text: Vec<u8>,
}

impl Bytes {
    pub fn new(input: Box<dyn Read>) -> Bytes {
        Bytes { input, buffer: Vec::new(), place: 0, before: 0, piece: 0, has_failed: false, text: Vec::new() }
    }

    /// The next byte, or None at the end or behind a fault, which `stray` tells apart.
    #[inline]
    fn peek(&mut self) -> Option<u8> {
        match self.buffer.get(self.place) {
            Some(byte) => Some(*byte),
            None => self.fill(),
        }
    }

    #[cold]
    fn fill(&mut self) -> Option<u8> {
        self.before += self.buffer.len() as u64;
        self.place = 0;
        self.buffer.resize(1 << 16, 0);
        let mut got = self.input.read(&mut self.buffer);
        while matches!(&got, Err(fault) if fault.kind() == ErrorKind::Interrupted) {
            got = self.input.read(&mut self.buffer);
        }
        self.has_failed |= got.is_err();
        self.buffer.truncate(got.unwrap_or(0));
        self.buffer.first().copied()
    }

    /// What comes next can't stand here.
    #[cold]
    pub fn stray<T>(&mut self) -> Result<T, Fault> {
        match self.peek() {
            Some(_) => Err(format!("syntax error at byte {}", self.piece).into()),
            None if self.has_failed => Err("read error".into()),
            None => Err("unexpected end of input".into()),
        }
    }

    /// The first byte of the next piece, behind blanks.
    #[inline]
    pub fn front(&mut self) -> Option<u8> {
        while let Some(b' ' | b'\n' | b'\t' | b'\r') = self.peek() {
            self.place += 1;
        }
        self.piece = self.before + self.place as u64;
        self.peek()
    }

    /// Whether there was nothing left but blanks. A fault is no end.
    pub fn is_over(&mut self) -> bool {
        self.front().is_none() && !self.has_failed
    }

    /// Takes this sign, if it comes next.
    #[inline]
    pub fn takes(&mut self, sign: u8) -> bool {
        let is_there = self.front() == Some(sign);
        self.place += usize::from(is_there);
        is_there
    }

    pub fn take(&mut self, sign: u8) -> Result<(), Fault> {
        if self.takes(sign) {
            Ok(())
        } else {
            self.stray()
        }
    }

    /// Takes these bytes, with no blank between them.
    pub fn take_all(&mut self, signs: &[u8]) -> Result<(), Fault> {
        self.front();
        for sign in signs {
            if self.peek() != Some(*sign) {
                return self.stray();
            }
            self.place += 1;
        }
        Ok(())
    }

    pub fn number(&mut self) -> Result<u32, Fault> {
        let mut number: Option<u32> = None;
        self.front();
        // A number that begins with 0 is 0.
        while let (Some(digit @ b'0'..=b'9'), true) = (self.peek(), number != Some(0)) {
            let tens = number.unwrap_or(0).checked_mul(10);
            number = tens.and_then(|tens| tens.checked_add(u32::from(digit - b'0')));
            if number.is_none() {
                return self.stray();
            }
            self.place += 1;
        }
        number.map_or_else(|| self.stray(), Ok)
    }

    /// Reads a word into `text`, and answers whether a colon is directly behind it. It is taken then.
    pub fn word(&mut self) -> Result<bool, Fault> {
        self.text.clear();
        if !matches!(self.front(), Some(b'a'..=b'z' | b'A'..=b'Z' | b'_')) {
            return self.stray();
        }
        while let Some(byte @ (b'a'..=b'z' | b'A'..=b'Z' | b'0'..=b'9' | b'_' | b'-')) = self.peek() {
            self.text.push(byte);
            self.place += 1;
        }
        let has_colon = self.peek() == Some(b':');
        self.place += usize::from(has_colon);
        Ok(has_colon)
    }

    /// Reads a string into `text`.
    pub fn string(&mut self) -> Result<(), Fault> {
        self.text.clear();
        self.take(b'"')?;
        let mut is_escaped = false;
        while let Some(byte) = self.peek() {
            self.place += 1;
            match byte {
                b'"' if !is_escaped => return Ok(()),
                b'\\' if !is_escaped => is_escaped = true,
                _ => {
                    self.text.push(byte);
                    is_escaped = false;
                }
            }
        }
        self.stray()
    }
}
