//! Stand-ins for the crates that the originals name, all in one: the oracle brings this crate in once
//! under each of their names, and no two of them have a name in common.
mod hex;
mod hexane;
mod leb128;
mod named;
mod rustc_hash;
mod smol_str;
mod tinyvec;

pub use self::hex::*;
pub use self::hexane::*;
pub use self::leb128::write;
pub use self::named::*;
pub use self::rustc_hash::*;
pub use self::smol_str::*;
pub use self::tinyvec::*;
pub use derives::{Deserialize, Error, Serialize};
