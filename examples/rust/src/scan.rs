//! Visible pairs in order.
use crate::sys::{self, Place};
use crate::{checked, kind, Refused, Store};
use std::ops::{Bound, RangeBounds};

/// A visible pair: a key, and the place of its row.
#[derive(Clone, Debug, PartialEq, Eq)]
pub struct Pair {
    pub key: Vec<u8>,
    pub place: Place,
}

/// The pairs of a range of keys, one behind another. It is done behind a refusal.
pub struct Scan<'a> {
    store: &'a mut Store,
    range: Range,
    is_done: bool,
}

/// The pairs of a range of keys from the last one back. It is done behind a refusal.
pub struct ScanBack<'a> {
    store: &'a mut Store,
    range: Range,
    is_done: bool,
}

/// A range of keys, and how far it was read.
#[derive(Clone, Debug)]
pub struct Range {
    from: Bound<Vec<u8>>,
    to: Bound<Vec<u8>>,
    behind: Option<Pair>,
    is_committed: bool,
}

fn bound_of(bound: Bound<&Vec<u8>>) -> (u32, &[u8]) {
    match bound {
        Bound::Unbounded => (0, &[]),
        Bound::Included(key) => (1, key),
        Bound::Excluded(key) => (2, key),
    }
}

impl Range {
    /// The keys of these bounds, as transactions see them.
    pub fn new<K: AsRef<[u8]>>(keys: impl RangeBounds<K>) -> Range {
        Range {
            from: keys.start_bound().map(|key| key.as_ref().to_vec()),
            to: keys.end_bound().map(|key| key.as_ref().to_vec()),
            behind: None,
            is_committed: false,
        }
    }

    /// All keys.
    pub fn all() -> Range {
        Range::new::<&[u8]>(..)
    }

    /// The keys that begin with these bytes.
    pub fn prefix(prefix: &[u8]) -> Range {
        let mut last = prefix.to_vec();
        last.resize(last.len().max(56), u8::MAX);
        Range::new(prefix.to_vec()..=last)
    }

    /// The same as is committed, without what isn't yet.
    pub fn committed(self) -> Range {
        Range {
            is_committed: true,
            ..self
        }
    }

    /// The next pair of the range; none where none is left. Between two calls the store may change: no pair comes
    /// twice, and each that was visible throughout comes.
    pub fn read_next(&mut self, store: &mut Store) -> Result<Option<Pair>, Refused> {
        self.read(store, sys::nsf_next)
    }

    /// The same backward: at first the last pair of the range, then the one before the pair that was read last, in
    /// either direction. A range that is read as is committed is refused.
    pub fn read_previous(&mut self, store: &mut Store) -> Result<Option<Pair>, Refused> {
        self.read(store, sys::nsf_previous)
    }

    fn read(&mut self, store: &mut Store, call: sys::Read) -> Result<Option<Pair>, Refused> {
        let ((from, first), (to, last)) =
            (bound_of(self.from.as_ref()), bound_of(self.to.as_ref()));
        let (behind, place) = match &self.behind {
            Some(pair) => (pair.key.as_slice(), pair.place),
            None => (&[][..], Place::default()),
        };
        let bounds = sys::Bounds {
            from,
            to,
            goes_on: u32::from(self.behind.is_some()),
            committed: u32::from(self.is_committed),
            page: place.page,
            slot: place.slot,
        };
        let mut reply = sys::Reply::NONE;
        checked(unsafe {
            call(
                &mut store.handle,
                &bounds,
                first.as_ptr(),
                first.len(),
                last.as_ptr(),
                last.len(),
                behind.as_ptr(),
                behind.len(),
                &mut reply,
            )
        })?;
        if reply.kind != kind::PAIR {
            return Ok(None);
        }
        self.behind = Some(Pair {
            key: reply.key[..usize::from(reply.key_length)].to_vec(),
            place: Place {
                page: reply.page,
                slot: reply.slot,
            },
        });
        Ok(self.behind.clone())
    }
}

impl Iterator for Scan<'_> {
    type Item = Result<Pair, Refused>;

    fn next(&mut self) -> Option<Result<Pair, Refused>> {
        if self.is_done {
            return None;
        }
        let found = self.range.read_next(self.store).transpose();
        self.is_done = !matches!(found, Some(Ok(_)));
        found
    }
}

impl Iterator for ScanBack<'_> {
    type Item = Result<Pair, Refused>;

    fn next(&mut self) -> Option<Result<Pair, Refused>> {
        if self.is_done {
            return None;
        }
        let found = self.range.read_previous(self.store).transpose();
        self.is_done = !matches!(found, Some(Ok(_)));
        found
    }
}

impl Store {
    /// The visible pairs of a range, in the order of their keys' bytes, then of their places.
    pub fn scan(&mut self, range: Range) -> Scan<'_> {
        Scan {
            store: self,
            range,
            is_done: false,
        }
    }

    /// The same pairs from the last one back.
    pub fn scan_back(&mut self, range: Range) -> ScanBack<'_> {
        ScanBack {
            store: self,
            range,
            is_done: false,
        }
    }
}
