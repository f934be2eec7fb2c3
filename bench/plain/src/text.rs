//! The output: rows of CSV in one buffer.

/// Rows that are written one after the other, field by field.
#[derive(Clone, Default)]
pub struct Text { pub bytes: Vec<u8> }

impl Text {
    /// Begins a row with its word.
    pub fn row(&mut self, word: &str) -> &mut Text {
        self.bytes.extend_from_slice(word.as_bytes());
        self
    }

    pub fn end(&mut self) {
        self.bytes.push(b'\n');
    }

    /// A field that needs no quotes.
    pub fn word(&mut self, word: &str) -> &mut Text {
        self.bytes.push(b',');
        self.row(word)
    }

    /// A field that is quoted where it has a comma or a quote; line ends are in no name.
    pub fn name(&mut self, name: &[u8]) -> &mut Text {
        self.bytes.push(b',');
        if !name.iter().any(|&byte| byte == b',' || byte == b'"') {
            self.bytes.extend_from_slice(name);
            return self;
        }
        self.bytes.push(b'"');
        for &byte in name {
            self.bytes.extend_from_slice(if byte == b'"' { b"\"\"" } else { std::slice::from_ref(&byte) });
        }
        self.bytes.push(b'"');
        self
    }

    pub fn number(&mut self, number: i64) -> &mut Text {
        // The field is written from its end: a comma, a sign and nineteen digits at most.
        let mut field = [0u8; 24];
        let mut at = field.len();
        let mut put = |byte| {
            at -= 1;
            field[at] = byte;
        };
        let mut rest = number.unsigned_abs();
        while rest >= 10 {
            put(b'0' + (rest % 10) as u8);
            rest /= 10;
        }
        put(b'0' + rest as u8);
        if number < 0 {
            put(b'-');
        }
        put(b',');
        self.bytes.extend_from_slice(&field[at..]);
        self
    }

    /// A reduced fraction, and its value in per cent, rounded up to hundredths.
    pub fn fraction(&mut self, over: u64, under: u64) -> &mut Text {
        let (mut common, mut rest) = (over, under);
        while rest != 0 {
            (common, rest) = (rest, common % rest);
        }
        let (over, under) = (over / common, under / common);
        let hundredths = (over as u128 * 10_000).div_ceil(under as u128);
        self.word(&format!("{over}/{under},{}.{:02}", hundredths / 100, hundredths % 100))
    }

    pub fn append(&mut self, other: &Text) {
        self.bytes.extend_from_slice(&other.bytes);
    }
}
