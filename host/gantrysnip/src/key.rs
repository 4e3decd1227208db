//! Keys of maps.
use crate::sizes::MAX_KEY;
use crate::Unfit;
use std::fmt;

/// 0 to 24 bytes, which need not be text. Keys stand in byte order.
///
/// ```
/// use gantrysnip::Key;
/// assert_eq!(Key::new("crew")?.bytes(), b"crew");
/// assert_eq!(Key::new([0xff, 0x00])?.to_string(), r#""\xff\x00""#);
/// assert!(Key::new("a")? < Key::new("ab")?);
/// assert!(Key::new([b'k'; 25]).is_err());
/// # Ok::<(), gantrysnip::Unfit>(())
/// ```
#[derive(Clone, Copy, PartialEq, Eq, PartialOrd, Ord, Hash)]
pub struct Key {
    // past the length all bytes are 0, so that comparing these two fields is byte order
    padded: [u8; MAX_KEY],
    length: usize,
}

impl Key {
    pub fn new(bytes: impl AsRef<[u8]>) -> Result<Key, Unfit> {
        let bytes = bytes.as_ref();
        let mut padded = [0; MAX_KEY];
        padded.get_mut(..bytes.len()).ok_or(Unfit::Key(bytes.len()))?.copy_from_slice(bytes);
        Ok(Key { padded, length: bytes.len() })
    }

    pub fn bytes(&self) -> &[u8] {
        self.padded.get(..self.length).unwrap_or(&self.padded)
    }

    /// Words 4 to 7 of a row: the length and the bytes, 8 a word, the first byte highest.
    pub(crate) fn words(&self) -> [u64; 4] {
        let [a, b, c] = [0, 8, 16].map(|from| {
            let eight = self.padded.get(from..from + 8).and_then(|eight| eight.try_into().ok());
            u64::from_be_bytes(eight.unwrap_or_default())
        });
        [self.length as u64, a, b, c]
    }

    /// A length above 24 and bytes past the length are cut off: only malformed words have them.
    pub(crate) fn from_words([length, a, b, c]: [u64; 4]) -> Key {
        let length = length.min(MAX_KEY as u64) as usize;
        let bytes = [a, b, c].into_iter().flat_map(u64::to_be_bytes).take(length);
        let mut padded = [0; MAX_KEY];
        padded.iter_mut().zip(bytes).for_each(|(place, byte)| *place = byte);
        Key { padded, length }
    }
}

impl fmt::Display for Key {
    /// As in the text form: quoted, with what is no plain text as \xNN.
    fn fmt(&self, f: &mut fmt::Formatter<'_>) -> fmt::Result {
        f.pad(&crate::text::quoted(self.bytes()))
    }
}

impl fmt::Debug for Key {
    fn fmt(&self, f: &mut fmt::Formatter<'_>) -> fmt::Result {
        fmt::Display::fmt(self, f)
    }
}
