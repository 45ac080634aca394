//! How messages are written: numbers with their lowest byte first, texts and lists after their length.

/// Writes a message.
#[derive(Debug, Default)]
pub struct Writer(Vec<u8>);

impl Writer {
    /// Begins a message with the number of its kind.
    pub fn of(kind: u8) -> Writer {
        Writer(vec![kind])
    }

    pub fn flag(mut self, flag: bool) -> Writer {
        self.0.push(u8::from(flag));
        self
    }

    pub fn number(mut self, number: u32) -> Writer {
        self.0.extend(number.to_le_bytes());
        self
    }

    pub fn long(mut self, number: u64) -> Writer {
        self.0.extend(number.to_le_bytes());
        self
    }

    pub fn bytes(self, bytes: &[u8]) -> Writer {
        let mut writer = self.number(bytes.len() as u32);
        writer.0.extend(bytes);
        writer
    }

    pub fn longs(self, numbers: &[u64]) -> Writer {
        let mut writer = self.number(numbers.len() as u32);
        writer.0.extend(numbers.iter().flat_map(|number| number.to_le_bytes()));
        writer
    }

    pub fn end(self) -> Vec<u8> {
        self.0
    }
}

/// Reads a message, of which nothing is trusted: each part may be missing, and more than the most is refused before it is kept.
#[derive(Debug)]
pub struct Reader<'message>(&'message [u8]);

impl<'message> Reader<'message> {
    pub fn of(message: &'message [u8]) -> Reader<'message> {
        Reader(message)
    }

    fn take(&mut self, count: usize) -> Option<&'message [u8]> {
        let (taken, rest) = (self.0.get(..count)?, self.0.get(count..)?);
        self.0 = rest;
        Some(taken)
    }

    pub fn kind(&mut self) -> Option<u8> {
        self.take(1).map(|bytes| bytes[0])
    }

    pub fn flag(&mut self) -> Option<bool> {
        match self.kind()? {
            0 => Some(false),
            1 => Some(true),
            _ => None,
        }
    }

    pub fn number(&mut self) -> Option<u32> {
        Some(u32::from_le_bytes(self.take(4)?.try_into().ok()?))
    }

    pub fn long(&mut self) -> Option<u64> {
        Some(u64::from_le_bytes(self.take(8)?.try_into().ok()?))
    }

    /// A number of things, at most so many.
    pub fn count(&mut self, most: usize) -> Option<usize> {
        self.number().map(|count| count as usize).filter(|count| *count <= most)
    }

    pub fn bytes(&mut self, most: usize) -> Option<&'message [u8]> {
        let count = self.count(most)?;
        self.take(count)
    }

    /// A text; what is no UTF-8 in it is replaced.
    pub fn text(&mut self, most: usize) -> Option<String> {
        Some(String::from_utf8_lossy(self.bytes(most)?).into_owned())
    }

    pub fn longs(&mut self, most: usize) -> Option<Vec<u64>> {
        let count = self.count(most)?;
        (0..count).map(|_| self.long()).collect()
    }

    /// Returns the message that was read, if nothing is left over.
    pub fn whole<Message>(&self, message: Message) -> Option<Message> {
        Some(message).filter(|_| self.0.is_empty())
    }
}
