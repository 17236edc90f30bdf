//! The answer to a byte asked.

use std::fmt;

/// The persist interval of a byte, with the events that it comes from. Accepted events are numbered
/// from 1.
#[derive(Clone, Copy, Debug, PartialEq, Eq, Hash)]
pub enum Interval {
    /// The byte was never stored to.
    None,
    Open {
        /// The epoch of the byte's last store.
        since: usize,
        /// The byte's last store.
        store: usize,
        /// The first write-back of the line after it, 0 if there is none yet.
        write_back: usize,
    },
    Closed {
        /// The epoch of the byte's last store.
        from: usize,
        /// The epoch that the fence begins.
        to: usize,
        /// The byte's last store.
        store: usize,
        /// The first write-back of the line after it.
        write_back: usize,
        /// The first fence after the write-back.
        fence: usize,
    },
}

impl Interval {
    /// The interval without its events.
    pub fn epochs(self) -> Epochs {
        match self {
            Interval::None => Epochs::None,
            Interval::Open { since, .. } => Epochs::Open(since),
            Interval::Closed { from, to, .. } => Epochs::Closed(from, to),
        }
    }

    /// Store, write-back and fence, 0 for those that the interval does not name.
    pub fn events(self) -> [usize; 3] {
        match self {
            Interval::None => [0; 3],
            Interval::Open {
                store, write_back, ..
            } => [store, write_back, 0],
            Interval::Closed {
                store,
                write_back,
                fence,
                ..
            } => [store, write_back, fence],
        }
    }

    /// The same epochs with other event numbers.
    pub fn renumbered(self, number: impl Fn(usize) -> usize) -> Interval {
        match self {
            Interval::None => Interval::None,
            Interval::Open {
                since,
                store,
                write_back,
            } => Interval::Open {
                since,
                store: number(store),
                write_back: number(write_back),
            },
            Interval::Closed {
                from,
                to,
                store,
                write_back,
                fence,
            } => Interval::Closed {
                from,
                to,
                store: number(store),
                write_back: number(write_back),
                fence: number(fence),
            },
        }
    }
}

/// The words that are printed for it.
impl fmt::Display for Interval {
    fn fmt(&self, f: &mut fmt::Formatter<'_>) -> fmt::Result {
        let [store, write_back, fence] = self.events();
        match self.epochs() {
            Epochs::None => write!(f, "none"),
            Epochs::Open(since) => {
                write!(
                    f,
                    "open since {since} store {store} write-back {write_back}"
                )
            }
            Epochs::Closed(from, to) => write!(
                f,
                "closed {from} to {to} store {store} write-back {write_back} fence {fence}"
            ),
        }
    }
}

/// The persist interval of a byte in epochs alone. The epoch is the count of fences so far.
#[derive(Clone, Copy, Debug, PartialEq, Eq, Hash)]
pub enum Epochs {
    /// The byte was never stored to.
    None,
    /// Open since the epoch of the byte's last store.
    Open(usize),
    /// Opened at the epoch of the byte's last store, closed at the second epoch.
    Closed(usize, usize),
}

/// The persist interval of a byte after all events of a trace.
#[derive(Clone, Copy, Debug, PartialEq, Eq, Hash)]
pub struct OfTrace {
    pub interval: Interval,
    /// The sites of store, write-back and fence, 0 for those that the interval does not name.
    pub sites: [u16; 3],
}

impl OfTrace {
    /// The lines that are printed for it: the interval of this byte, and the site of each event
    /// named.
    pub fn text(&self, byte: usize) -> String {
        let [store, write_back, fence] = self.interval.events();
        let mut text = match self.interval.epochs() {
            Epochs::None => format!("byte {byte} none\n"),
            Epochs::Open(since) => {
                format!("byte {byte} open {since} store {store} write-back {write_back}\n")
            }
            Epochs::Closed(from, to) => format!(
                "byte {byte} closed {from} {to} store {store} write-back {write_back} fence {fence}\n"
            ),
        };
        for (event, site) in self.interval.events().into_iter().zip(self.sites) {
            if event != 0 {
                text += &format!("event {event} site {site}\n");
            }
        }
        text
    }
}
