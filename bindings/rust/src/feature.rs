//! Features and tags.
use crate::calls;
use crate::Error;
use std::ops::{Bound, RangeBounds};
use std::str::FromStr;

/// A tag of four letters.
#[derive(Clone, Copy, Debug, PartialEq, Eq, Hash)]
#[repr(transparent)]
pub struct Tag(pub u32);

impl Tag {
    pub const fn from_bytes(bytes: &[u8; 4]) -> Tag {
        Tag(u32::from_be_bytes(*bytes))
    }
}

/// A feature over a range of clusters.
#[repr(C)]
#[derive(Clone, Copy, Debug, PartialEq, Eq)]
pub struct Feature {
    pub tag: Tag,
    pub value: u32,
    pub start: u32,
    /// The cluster behind the last one. `u32::MAX` is no end.
    pub end: u32,
}

impl Feature {
    pub fn new(tag: Tag, value: u32, range: impl RangeBounds<usize>) -> Feature {
        let start = match range.start_bound() {
            Bound::Included(&start) => start as u32,
            Bound::Excluded(&start) => start as u32 + 1,
            Bound::Unbounded => 0,
        };
        let end = match range.end_bound() {
            Bound::Included(&end) => (end as u32).saturating_add(1),
            Bound::Excluded(&end) => end as u32,
            Bound::Unbounded => u32::MAX,
        };
        Feature { tag, value, start, end }
    }
}

impl FromStr for Feature {
    type Err = Error;

    /// The feature of a text as `smcp`, `-liga` or `aalt[3:5]=2`.
    fn from_str(text: &str) -> Result<Feature, Error> {
        let mut feature = Feature { tag: Tag(0), value: 0, start: 0, end: 0 };
        // SAFETY: the text is there for its length, and the feature is written to.
        Error::check(unsafe { calls::aat_feature_from_string(text.as_ptr(), text.len(), &mut feature) })?;
        Ok(feature)
    }
}
