//! What is printed.

#[derive(Default)]
pub struct Print {
    bytes: Vec<u8>,
}

impl Print {
    pub fn with_room(bytes: usize) -> Self {
        Print { bytes: Vec::with_capacity(bytes) }
    }

    pub fn line(&mut self, text: &str) {
        self.text(text);
        self.end();
    }

    /// `raise 3` and the like.
    pub fn step(&mut self, word: &str, x: usize) {
        self.text(word);
        self.small(x as u8);
        self.end();
    }

    pub fn level(&mut self, x: usize, level: u8) {
        self.text("level ");
        self.small(x as u8);
        self.bytes.push(b' ');
        self.small(level);
        self.end();
    }

    pub fn told(&mut self, user: usize, answer: &str) {
        self.small(user as u8);
        self.text(answer);
        self.end();
    }

    pub fn away(&mut self, why: u8) {
        self.text("away ");
        self.small(why);
        self.end();
    }

    pub fn no_line(&mut self, number: u64) {
        self.text("line ");
        self.text(&number.to_string());
        self.text("?");
        self.end();
    }

    pub fn number(&mut self, number: u64) {
        self.line(&number.to_string());
    }

    pub fn levels(&mut self, levels: &[u8]) {
        for (x, &level) in levels.iter().enumerate() {
            if x > 0 {
                self.bytes.push(b' ');
            }
            self.small(level);
        }
        self.end();
    }

    pub fn into_bytes(self) -> Vec<u8> {
        self.bytes
    }

    fn text(&mut self, text: &str) {
        self.bytes.extend_from_slice(text.as_bytes());
    }

    /// A number below 100.
    fn small(&mut self, n: u8) {
        if n >= 10 {
            self.bytes.push(b'0' + n / 10);
        }
        self.bytes.push(b'0' + n % 10);
    }

    fn end(&mut self) {
        self.bytes.push(b'\n');
    }
}
