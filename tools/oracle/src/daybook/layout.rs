//! The format of a day file: a count, that many pairs of offset and length, then the pieces.

use super::LONGEST;

/// The bytes of the count, and of a pair.
pub const COUNT: usize = 4;
pub const PAIR: usize = 8;

fn half(bytes: &[u8]) -> u32 {
    u32::from_le_bytes(bytes.try_into().expect("four bytes"))
}

/// A pair's offset and length. Each is below 2^32, so that no sum of the two overflows.
fn pair(bytes: &[u8]) -> (u64, u64) {
    let (offset, length) = bytes.split_at(4);
    (u64::from(half(offset)), u64::from(half(length)))
}

/// The pairs that the count announces; none if the file is shorter.
fn pairs(file: &[u8]) -> Option<Vec<(u64, u64)>> {
    let (count, behind) = file.split_at_checked(COUNT)?;
    let bytes = u64::from(half(count)) * PAIR as u64;
    let table = behind.get(..usize::try_from(bytes).ok()?)?;
    Some(table.chunks_exact(PAIR).map(pair).collect())
}

/// Whether the pairs keep the rules in a file of so many bytes: offsets rise strictly, the first is at or past the pairs' end, and each piece ends by the
/// next one's offset, the last by the file's end.
fn sound(pairs: &[(u64, u64)], file: u64) -> bool {
    let behind_pairs = (COUNT + PAIR * pairs.len()) as u64;
    let next = pairs.iter().skip(1).map(|&(offset, _)| offset);
    let by = next.chain([file]);
    let first = pairs.first().is_none_or(|first| first.0 >= behind_pairs);
    let rising = pairs.windows(2).all(|two| two[0].0 < two[1].0);
    let mut ends = pairs.iter().map(|&(offset, length)| offset + length);
    first && rising && by.zip(&mut ends).all(|(by, end)| end <= by)
}

/// The pieces of a day file, in file order; none if it breaks a rule (60).
pub fn pieces(file: &[u8]) -> Option<Vec<&[u8]>> {
    if file.len() > LONGEST {
        return None;
    }
    let pairs = pairs(file)?;
    let piece = |&(offset, length): &(u64, u64)| &file[offset as usize..][..length as usize];
    sound(&pairs, file.len() as u64).then(|| pairs.iter().map(piece).collect())
}

/// A day file taken apart, sound or not: the count as it stands, the pairs, and the bytes behind them.
#[derive(Debug, Clone, Default)]
pub struct Parts {
    pub count: u32,
    pub pairs: Vec<(u32, u32)>,
    pub behind: Vec<u8>,
}

impl Parts {
    pub fn bytes(&self) -> Vec<u8> {
        let mut file = self.count.to_le_bytes().to_vec();
        for (offset, length) in &self.pairs {
            file.extend_from_slice(&offset.to_le_bytes());
            file.extend_from_slice(&length.to_le_bytes());
        }
        file.extend_from_slice(&self.behind);
        file
    }

    /// Where the pairs end.
    pub fn behind_pairs(&self) -> usize {
        COUNT + PAIR * self.pairs.len()
    }

    /// The file's length.
    pub fn length(&self) -> usize {
        self.behind_pairs() + self.behind.len()
    }

    /// The parts of a file: as many of the announced pairs as are there whole. Bytes too few for a count have none.
    pub fn of(file: &[u8]) -> Option<Parts> {
        let (count, behind) = file.split_at_checked(COUNT)?;
        let count = half(count);
        let whole = (behind.len() / PAIR).min(count as usize);
        let (table, behind) = behind.split_at(PAIR * whole);
        let narrow = |pair: (u64, u64)| (pair.0 as u32, pair.1 as u32);
        let pairs = table.chunks_exact(PAIR).map(|bytes| narrow(pair(bytes)));
        Some(Parts {
            count,
            pairs: pairs.collect(),
            behind: behind.to_vec(),
        })
    }

    /// A sound file of these pieces. `gap` gives the bytes before each piece, by its place, and behind the last; a piece without bytes needs one behind
    /// it if another follows, for offsets rise strictly.
    pub fn with_gaps<P: AsRef<[u8]>>(pieces: &[P], mut gap: impl FnMut(usize) -> Vec<u8>) -> Parts {
        let first = COUNT + PAIR * pieces.len();
        let mut parts = Parts {
            count: pieces.len() as u32,
            ..Parts::default()
        };
        let mut spare = false;
        for (place, piece) in pieces.iter().enumerate() {
            let mut before = gap(place);
            if spare && before.is_empty() {
                before.push(0);
            }
            parts.behind.append(&mut before);
            let offset = first + parts.behind.len();
            let piece = piece.as_ref();
            parts.pairs.push((offset as u32, piece.len() as u32));
            parts.behind.extend_from_slice(piece);
            spare = piece.is_empty();
        }
        parts.behind.append(&mut gap(pieces.len()));
        parts
    }
}

/// The file of these pieces, one right behind the other.
pub fn pack<P: AsRef<[u8]>>(pieces: &[P]) -> Vec<u8> {
    Parts::with_gaps(pieces, |_| Vec::new()).bytes()
}
