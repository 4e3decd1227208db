//! What the originals name and the harness never runs: `rand`, `getrandom`, `serde`, `unicode_segmentation`.
pub mod distr {
    pub struct StandardUniform;
    pub trait Distribution<T> {
        fn sample<R: super::Rng + ?Sized>(&self, rng: &mut R) -> T;
    }
}
pub trait Rng {
    fn fill_bytes(&mut self, bytes: &mut [u8]);
}
pub trait RngExt: Rng {
    fn fill(&mut self, bytes: &mut [u8]) {
        self.fill_bytes(bytes)
    }
}
impl<R: Rng + ?Sized> RngExt for R {}

pub fn fill(_bytes: &mut [u8]) -> Result<(), std::fmt::Error> {
    Err(std::fmt::Error)
}

pub trait Serializer: Sized {
    type Ok;
    type Error;
    fn serialize_i64(self, value: i64) -> Result<Self::Ok, Self::Error>;
    fn serialize_str(self, value: &str) -> Result<Self::Ok, Self::Error>;
}
pub trait Serialize {
    fn serialize<S: Serializer>(&self, serializer: S) -> Result<S::Ok, S::Error>;
}

/// Grapheme clusters belong to text, which is outside the base.
pub trait UnicodeSegmentation {
    fn graphemes(&self, extended: bool) -> std::str::Chars<'_>;
}
impl UnicodeSegmentation for str {
    fn graphemes(&self, _extended: bool) -> std::str::Chars<'_> {
        unimplemented!("grapheme clusters are outside the harness")
    }
}
