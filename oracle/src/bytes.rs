//! The stored lists' bytes: big-endian numbers, floats as their bits with every NaN as 7ff8000000000000.

/// The bits of a float, one pattern for every NaN.
pub fn bits_of(x: f64) -> u64 {
    if x.is_nan() { 0x7ff8_0000_0000_0000 } else { x.to_bits() }
}

#[derive(Default)]
pub struct Bytes(pub Vec<u8>);

impl Bytes {
    pub fn byte(&mut self, n: u8) {
        self.0.push(n)
    }
    pub fn pair(&mut self, n: u16) {
        self.0.extend(n.to_be_bytes())
    }
    pub fn word(&mut self, n: u64) {
        self.0.extend(n.to_be_bytes())
    }
    pub fn float(&mut self, x: f64) {
        self.word(bits_of(x))
    }

    /// The bytes after two that tell how many they are.
    pub fn with_length(self) -> Vec<u8> {
        let length = u16::try_from(self.0.len()).expect("a list is shorter than 65,536 bytes");
        [&length.to_be_bytes()[..], &self.0].concat()
    }

    pub fn write(&self, path: &str) {
        let folder = std::path::Path::new(path).parent().expect("a path with a folder");
        std::fs::create_dir_all(folder).expect("the folder can be made");
        std::fs::write(path, &self.0).expect("the file can be written");
        println!("{path}: {} bytes", self.0.len());
    }
}
