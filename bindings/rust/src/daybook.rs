//! A day's segment listing, and day files to list.
//!
//! A day file holds the pieces of one product's day, snapshots and messages in the order in which they came (`docs/02-change-requests.md`, paper 1).
//! [`daybook()`] replays one and lists which stretches of the day could be shown; [`DayFile`] makes one from values.
//!
//! ```
//! use pinuglaw::daybook::{DayFile, daybook};
//! use pinuglaw::l3::L3Snapshot;
//!
//! let mut day = DayFile::new();
//! day.snapshot(&L3Snapshot {
//!     product_id: "BTC-USD".to_string(),
//!     sequence: 200,
//!     bids: vec![],
//!     asks: vec![],
//! })?;
//! let listing = daybook(&day.to_bytes()?);
//! assert_eq!(listing, "segment 1 200 200 open 0\ncounts 0 0 0 0 0 0 0 0 0 0 0 0\n");
//! # Ok::<(), pinuglaw::daybook::DayFileError>(())
//! ```

use thiserror::Error;

use crate::l3::{L3Message, L3Snapshot, pieces, words};
use crate::sys::{self, DAY_FILE_BYTES, LISTING_BYTES, MESSAGE_WORDS, SNAPSHOT_WORDS};

/// The bytes of the count, and of an offset or a length.
const INTEGER_BYTES: usize = 4;

/// Replays a day file on a fresh book, limits 512 and 512, and lists its segments: a line a segment (place, start, last good sequence, end, elapsed), the
/// twelve counts, and where a refusal stopped it.
///
/// Any bytes get a listing. Those that are no day file, or more than [`DAY_FILE_BYTES`], get the counts of nothing and `stop 0 60`.
///
/// # Panics
///
/// Never: no listing is longer than [`LISTING_BYTES`], and each is ASCII.
#[must_use]
pub fn daybook(file: &[u8]) -> String {
    let mut listing = vec![0; LISTING_BYTES];
    let length = sys::replay(file, &mut listing);
    assert_ne!(length, sys::OUTPUT_TOO_SMALL, "proved to fit");
    listing.truncate(length as usize);
    String::from_utf8(listing).expect("letters, digits, spaces and ends of lines")
}

/// Why a value has no place in a day file.
#[derive(Debug, Clone, Copy, PartialEq, Eq, Error)]
pub enum DayFileError {
    /// 4: an order id that is no UUID in lower case, a product that is no name of at most 16 bytes, more orders than a count holds.
    #[error("an order id that is no UUID, or a product above 16 bytes")]
    NotAPiece,
    /// 5: an amount that is no whole number of 10^-8 within ±10^15 of them.
    #[error("an amount that is no whole number of 10^-8 within the range")]
    AmountOutOfRange,
    /// 60: a file of more than [`DAY_FILE_BYTES`].
    #[error("a day file above 65,536 bytes")]
    TooLong,
}

/// A day file in the making: pieces in the order in which they are to be replayed.
///
/// The first one's product is the day's; another product's are refused (10) and counted, as on any book.
#[derive(Debug, Clone, Default, PartialEq, Eq)]
pub struct DayFile {
    pieces: Vec<Vec<u8>>,
}

impl DayFile {
    /// One without a piece.
    #[must_use]
    pub fn new() -> Self {
        Self::default()
    }

    /// Adds a snapshot.
    ///
    /// # Errors
    ///
    /// [`DayFileError::NotAPiece`] or [`DayFileError::AmountOutOfRange`], as the library's reader says; nothing is added then.
    pub fn snapshot(&mut self, snapshot: &L3Snapshot) -> Result<&mut Self, DayFileError> {
        // No bytes are no piece: where the snapshot has none, the reader says so.
        let piece = words::product_words(&snapshot.product_id)
            .and_then(|product| pieces::snapshot_piece(product, snapshot))
            .unwrap_or_default();
        let number = sys::read_snapshot(&piece, &mut [0; SNAPSHOT_WORDS]);
        self.read(number, piece)
    }

    /// Adds a message. Of an unsupported one the name is left out: a piece has no room for it.
    ///
    /// # Errors
    ///
    /// As [`Self::snapshot`].
    pub fn message(&mut self, message: &L3Message) -> Result<&mut Self, DayFileError> {
        let piece = words::product_words(&message.product_id)
            .and_then(|product| pieces::message_piece(product, message))
            .unwrap_or_default();
        let number = sys::read_message(&piece, &mut [0; MESSAGE_WORDS]);
        self.read(number, piece)
    }

    /// Adds a piece that its reader answered with `number`.
    fn read(&mut self, number: u64, piece: Vec<u8>) -> Result<&mut Self, DayFileError> {
        match number {
            0 => Ok(self.piece(piece)),
            sys::AMOUNT_OUT_OF_RANGE => Err(DayFileError::AmountOutOfRange),
            _ => Err(DayFileError::NotAPiece),
        }
    }

    /// Adds any bytes as a piece, as a line may send them.
    pub fn piece(&mut self, bytes: impl Into<Vec<u8>>) -> &mut Self {
        self.pieces.push(bytes.into());
        self
    }

    /// The file: the count, the pairs of offset and length, the pieces one behind the other.
    ///
    /// # Errors
    ///
    /// [`DayFileError::TooLong`] above [`DAY_FILE_BYTES`].
    pub fn to_bytes(&self) -> Result<Vec<u8>, DayFileError> {
        let pairs = INTEGER_BYTES + 2 * INTEGER_BYTES * self.pieces.len();
        let length = pairs + self.pieces.iter().map(room).sum::<usize>();
        if length > DAY_FILE_BYTES {
            return Err(DayFileError::TooLong);
        }
        let mut bytes = Vec::with_capacity(length);
        let mut integer = |value: usize| bytes.extend((value as u32).to_le_bytes());
        integer(self.pieces.len());
        let mut offset = pairs;
        for piece in &self.pieces {
            integer(offset);
            integer(piece.len());
            offset += room(piece);
        }
        for piece in &self.pieces {
            bytes.extend(piece);
            bytes.resize(bytes.len() + room(piece) - piece.len(), 0);
        }
        Ok(bytes)
    }
}

/// The bytes from a piece's offset to the next one's: offsets rise strictly, so a byte follows a piece of none.
fn room(piece: &Vec<u8>) -> usize {
    piece.len().max(1)
}
