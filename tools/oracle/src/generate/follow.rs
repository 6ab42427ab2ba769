//! The mirrors follow the answers.

use super::mirror::{Damage, Standing};
use super::{Estimated, Generator, HANDSHAKES, PLENTY, Shaken};
use crate::call::{Act, Anchor, Answer, CEILING, Call, Estimate, Stepped, Values};
use crate::piece::{decode_message, decode_snapshot, shape_message};

impl Generator {
    pub(super) fn follow(&mut self, call: &Call, answer: &Answer) {
        let slot = call.book;
        match (&call.act, answer) {
            (Act::Handshake { slot: at }, Answer::Said(_)) => self.shaken(*at, slot, false),
            (Act::Handshake { slot: at }, Answer::NoWord) => self.shaken(*at, slot, true),
            (
                Act::ForgeHandshake {
                    slot: at,
                    handshake,
                },
                _,
            ) => {
                self.handshakes[usize::from(*at)] = Some(Shaken {
                    book: slot,
                    segment: handshake.segment,
                    alive: !handshake.ended,
                    wordless: false,
                });
            }
            (
                Act::QueueEstimate { slot: at, .. } | Act::QueueEstimateOwn { slot: at, .. },
                Answer::Said(said),
            ) => {
                if let Values::Estimate { estimate, .. } = &said.values {
                    self.estimated(*at, slot, estimate);
                }
            }
            (
                Act::ForgeEstimate {
                    slot: at, estimate, ..
                },
                _,
            ) => self.estimated(*at, slot, estimate),
            (Act::Apply { piece }, _) => self.follow_message(slot, piece, answer),
            (Act::Step { slot: at, piece }, _) => {
                self.follow_step(*at, answer);
                self.follow_message(slot, piece, answer);
            }
            (Act::Bootstrap { .. } | Act::BootstrapWithBuffer { .. }, _) => {
                self.follow_bootstrap(slot, &call.act, answer);
            }
            _ => {}
        }
    }

    fn follow_bootstrap(&mut self, slot: u8, act: &Act, answer: &Answer) {
        match act {
            Act::Bootstrap { piece } if self.follow_snapshot(slot, piece, answer) => {
                self.after_snapshot(slot);
            }
            Act::BootstrapWithBuffer {
                slot: at,
                piece,
                buffer,
            } => {
                if self.follow_snapshot(slot, piece, answer) {
                    self.follow_buffer(slot, buffer, answer);
                }
                self.follow_buffered(*at, slot, answer);
            }
            _ => {}
        }
    }

    fn shaken(&mut self, at: u8, slot: u8, wordless: bool) {
        if let Some(book) = &self.books[usize::from(slot)] {
            self.handshakes[usize::from(at)] = Some(Shaken {
                book: slot,
                segment: book.current_segment(),
                alive: book.segments > 0,
                wordless,
            });
        }
    }

    fn estimated(&mut self, at: u8, book: u8, estimate: &Estimate) {
        let entries = match estimate.anchor {
            Anchor::Hypothetical { orders, .. } => orders.min(CEILING + 1),
            Anchor::Own { .. } => 0,
        };
        self.estimates[usize::from(at)] = Some(Estimated { book, entries });
    }

    fn follow_step(&mut self, at: u8, answer: &Answer) {
        let Some(held) = &mut self.handshakes[usize::from(at)] else {
            return;
        };
        match answer {
            Answer::NoWord => held.wordless = true,
            Answer::Said(said) => held.alive = !matches!(said.number, 9 | 16 | 17),
            Answer::Absent => {}
        }
    }

    fn follow_message(&mut self, slot: u8, piece: &[u8], answer: &Answer) {
        let (Some(book), Ok(message)) = (&mut self.books[usize::from(slot)], shape_message(piece))
        else {
            return;
        };
        let next = message.sequence == book.last.wrapping_add(1);
        match answer {
            Answer::Said(said) if said.number == 16 => book.standing = Standing::Invalid,
            Answer::Said(said) => {
                let applied = match said.values {
                    Values::Applied(_) => true,
                    Values::Step { stepped, .. } => matches!(stepped, Some(Stepped::Applied(_))),
                    _ => false,
                };
                if applied {
                    book.accept(&message);
                }
            }
            // A guess: most messages are meant to be accepted.
            Answer::NoWord if book.damage == Damage::Harmless && next => book.accept(&message),
            _ => {}
        }
    }

    /// Whether the snapshot was accepted.
    fn follow_snapshot(&mut self, slot: u8, piece: &[u8], answer: &Answer) -> bool {
        let (Some(book), Ok(snapshot)) =
            (&mut self.books[usize::from(slot)], decode_snapshot(piece))
        else {
            return false;
        };
        let accepted = match answer {
            Answer::Said(said) => matches!(said.number, 0 | 16),
            Answer::NoWord => book.damage == Damage::Harmless,
            Answer::Absent => false,
        };
        if accepted {
            book.replace(&snapshot);
            if book.segments >= book.segment_records {
                // No further snapshot fits.
                book.life = book.life.min(150);
            }
        } else if matches!(answer, Answer::Said(said) if said.number == 6) {
            book.life = book.life.min(self.random.below(6));
        }
        accepted
    }

    /// The messages that a buffer brought: each is the next one, up to the one that ended it.
    fn follow_buffer(&mut self, slot: u8, buffer: &[Vec<u8>], answer: &Answer) {
        let Some(book) = &mut self.books[usize::from(slot)] else {
            return;
        };
        let applied = match answer {
            Answer::Said(said) => match said.values {
                Values::Buffered { handshake, .. } => handshake.applied,
                _ => 0,
            },
            // A guess, as for a single message.
            _ => buffer.len() as u64,
        };
        let (product, start) = (book.product, book.start);
        let messages = buffer.iter().filter_map(|piece| decode_message(piece).ok());
        let new = messages.filter(|m| m.product == product && m.sequence > start);
        for message in new.take(applied as usize) {
            if message.sequence == book.last.wrapping_add(1) {
                book.accept(&message);
            }
        }
        if matches!(answer, Answer::Said(said) if said.number == 16) {
            book.standing = Standing::Invalid;
        }
    }

    fn follow_buffered(&mut self, at: u8, slot: u8, answer: &Answer) {
        match answer {
            Answer::NoWord => self.shaken(at, slot, true),
            Answer::Said(said) => {
                if let Values::Buffered { handshake, .. } = said.values {
                    self.handshakes[usize::from(at)] = Some(Shaken {
                        book: slot,
                        segment: handshake.segment,
                        alive: !handshake.ended,
                        wordless: false,
                    });
                }
            }
            Answer::Absent => {}
        }
    }

    /// Most snapshots begin a handshake at once.
    fn after_snapshot(&mut self, slot: u8) {
        if self.random.chance(80) {
            let act = Act::Handshake {
                slot: self.random.below(HANDSHAKES) as u8,
            };
            self.queued.push_back(Call {
                book: slot,
                lent: PLENTY,
                act,
            });
        }
    }
}
