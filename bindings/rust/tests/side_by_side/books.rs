//! One trait for both books. Its implementation is written once, for either module: only the module's name differs.

use std::fmt::{Debug, Display};

use pinuglaw::Decimal;
use pinuglaw::l3::{L3Message, L3Side, L3Snapshot};

/// What `queue_estimate` said, and the estimate if there is one.
pub type Estimated<E> = (String, Option<E>);

/// The rules of either module.
pub struct Rules {
    pub keeps_priority: bool,
    pub max_orders: usize,
    pub max_levels: usize,
}

pub trait L3Book: Clone {
    type Estimate;

    fn new(product: &str, rules: &Rules) -> Self;
    fn manifest(&self) -> String;
    fn invalidation(&self) -> String;
    fn bootstrap(&mut self, snapshot: &L3Snapshot) -> String;
    fn bootstrap_with_buffer(&mut self, snapshot: &L3Snapshot, buffer: &[L3Message]) -> String;
    fn apply(&mut self, message: &L3Message) -> String;
    fn last_sequence(&self) -> String;
    fn best(&self) -> String;
    fn l2(&self, side: L3Side) -> String;
    fn stale_l2(&self, side: L3Side) -> String;
    fn level_queue(&self, side: L3Side, price: Decimal) -> String;
    fn priority_profile(&self, side: L3Side) -> String;
    fn audit(&self) -> String;
    fn queue_estimate(&self, side: L3Side, price: Decimal) -> Estimated<Self::Estimate>;
    fn queue_estimate_own(&self, order_id: &str) -> Estimated<Self::Estimate>;
    fn volume_ahead(&self, estimate: &Self::Estimate) -> String;
}

fn said<T: Debug, E: Debug + Display>(result: Result<T, E>) -> String {
    match result {
        Ok(value) => format!("Ok({value:?})"),
        Err(error) => format!("{error:?}: {error}"),
    }
}

/// The text of an estimate without the name of its segment, which is a number of the process in the Rust.
fn estimated<E: Debug, F: Debug + Display>(result: Result<E, F>) -> Estimated<E> {
    match result {
        Ok(estimate) => {
            let text = format!("{estimate:?}");
            let (before, rest) = text.split_once(", segment").expect("a segment");
            let (_, anchor) = rest.split_once("anchor").expect("an anchor");
            (format!("{before}{anchor}"), Some(estimate))
        }
        Err(error) => (format!("{error:?}: {error}"), None),
    }
}

/// Implements [`L3Book`] for the module that the names come from; `given` turns this crate's messages into the module's.
macro_rules! l3_book {
    ($name:ident, $given:ident, $($l3:tt)+) => {
        pub use $given::$name;

        mod $given {
            use super::*;
            use crate::given::$given as given;
            use $($l3)+::queue::QueueEstimate;
            use $($l3)+::reconstructor::{BookReconstructor, SizeDecrease, VenueRules};

            #[derive(Clone)]
            pub struct $name(pub BookReconstructor);

            impl L3Book for $name {
                type Estimate = QueueEstimate;

                fn new(product: &str, rules: &Rules) -> Self {
                    let rules = VenueRules {
                        size_decrease: if rules.keeps_priority {
                            SizeDecrease::KeepsPriority
                        } else {
                            SizeDecrease::PriorityUnknown
                        },
                        max_orders: rules.max_orders,
                        max_levels: rules.max_levels,
                    };
                    Self(BookReconstructor::new(product, rules))
                }
                fn manifest(&self) -> String {
                    format!("{:?}", self.0.manifest())
                }
                fn invalidation(&self) -> String {
                    format!("{:?}", self.0.invalidation())
                }
                fn bootstrap(&mut self, snapshot: &L3Snapshot) -> String {
                    said(self.0.bootstrap(&given::snapshot(snapshot)))
                }
                fn bootstrap_with_buffer(&mut self, snapshot: &L3Snapshot, buffer: &[L3Message]) -> String {
                    let buffer: Vec<_> = buffer.iter().map(given::message).collect();
                    said(self.0.bootstrap_with_buffer(&given::snapshot(snapshot), &buffer))
                }
                fn apply(&mut self, message: &L3Message) -> String {
                    said(self.0.apply(&given::message(message)))
                }
                fn last_sequence(&self) -> String {
                    said(self.0.last_sequence())
                }
                fn best(&self) -> String {
                    said(self.0.best())
                }
                fn l2(&self, side: L3Side) -> String {
                    said(self.0.l2(given::side(side)))
                }
                fn stale_l2(&self, side: L3Side) -> String {
                    format!("{:?}", self.0.stale_l2(given::side(side)))
                }
                fn level_queue(&self, side: L3Side, price: Decimal) -> String {
                    said(self.0.level_queue(given::side(side), price))
                }
                fn priority_profile(&self, side: L3Side) -> String {
                    said(self.0.priority_profile(given::side(side)))
                }
                fn audit(&self) -> String {
                    said(self.0.audit())
                }
                fn queue_estimate(&self, side: L3Side, price: Decimal) -> Estimated<QueueEstimate> {
                    estimated(self.0.queue_estimate(given::side(side), price))
                }
                fn queue_estimate_own(&self, order_id: &str) -> Estimated<QueueEstimate> {
                    estimated(self.0.queue_estimate_own(order_id))
                }
                fn volume_ahead(&self, estimate: &QueueEstimate) -> String {
                    said(self.0.volume_ahead(estimate))
                }
            }
        }
    };
}

l3_book!(Original, theirs, crate::original);
l3_book!(Ported, ours, pinuglaw::l3);
