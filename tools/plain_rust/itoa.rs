//! Numbers as text.
pub struct Buffer(String);

impl Buffer {
    pub fn new() -> Buffer {
        Buffer(String::new())
    }

    pub fn format<N: ToString>(&mut self, number: N) -> &str {
        self.0 = number.to_string();
        &self.0
    }
}
