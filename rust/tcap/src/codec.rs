//! What TCAP octets are, without an engine (Q.773, X.690).

use crate::Error;
use tcap_sys::codec;

/// The transaction identifiers at the front of a message, 1 to 4 octets each; `None` where none can be read.
#[derive(Clone, Debug, PartialEq, Eq, Hash)]
pub struct TransactionIds {
    /// The originating one.
    pub origin: Option<Vec<u8>>,
    /// The destination one.
    pub destination: Option<Vec<u8>>,
}

fn text(octets: Vec<u8>) -> String {
    String::from_utf8_lossy(&octets).into_owned()
}

/// The contents octets of the object identifier that a text names, as "0.4.0.0.1.0.1.3": what a context and a global code
/// take. Decimal numbers without leading zeros, each at most 4,294,967,295, behind a first number 2 at most
/// 4,294,967,215. [`Error::BadOid`]: the text names none.
pub fn oid(text: &str) -> Result<Vec<u8>, Error> {
    codec::oid_from_text(text.as_bytes()).map_err(Error::of)
}

/// The text of an object identifier's contents octets. [`Error::BadOid`]: they are none, or a number in it is above
/// 4,294,967,295.
pub fn oid_text(octets: &[u8]) -> Result<String, Error> {
    codec::oid_to_text(octets).map(text).map_err(Error::of)
}

/// The transaction identifiers of a message, as a router needs them, also where what stands behind them is faulty or
/// missing.
pub fn front(message: &[u8]) -> TransactionIds {
    let ids = codec::front(message);
    let of =
        |octets: [u8; 4], len: u8| octets.get(..usize::from(len)).filter(|some| !some.is_empty()).map(<[u8]>::to_vec);
    TransactionIds { origin: of(ids.origin, ids.origin_len), destination: of(ids.destination, ids.destination_len) }
}

/// A message line by line, as the command `tcap show` prints it; of octets that are none the verdict. `OutOfMemory`.
pub fn show(message: &[u8]) -> Result<String, Error> {
    codec::show(message).map(|(shown, _)| text(shown)).map_err(Error::of)
}

/// The verdict on a message, as `tcap check` prints it: "good", or its fault. `OutOfMemory`.
pub fn check(message: &[u8]) -> Result<String, Error> {
    codec::check(message).map(|(verdict, _)| text(verdict).trim_end().to_string()).map_err(Error::of)
}

/// The canonical form of a message; `None` where the verdict isn't good, as where that form would be above 65,535 octets.
/// `OutOfMemory`.
pub fn canon(message: &[u8]) -> Result<Option<Vec<u8>>, Error> {
    let (form, is_good) = codec::canon(message).map_err(Error::of)?;
    let octet = |digits: &[u8]| u8::from_str_radix(std::str::from_utf8(digits).ok()?, 16).ok();
    Ok(Some(form.chunks_exact(2).filter_map(octet).collect()).filter(|_| is_good))
}
