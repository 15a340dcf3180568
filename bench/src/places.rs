//! Sets of places in a stretch.

/// A set of places, 0 to 64: place k is the start of line k, and the end of the line before it.
#[derive(Clone, Copy, Debug, PartialEq, Eq)]
pub struct Places(u128);

impl Places {
    pub const NONE: Places = Places(0);

    pub fn one(place: usize) -> Places {
        Places(1 << place)
    }

    /// From the first to the last.
    pub fn range(first: usize, last: usize) -> Places {
        if first > last {
            return Places::NONE;
        }
        Places(u128::MAX >> (127 - last)).from(first)
    }

    pub fn insert(&mut self, place: usize) {
        self.0 |= 1 << place;
    }

    pub fn remove(&mut self, place: usize) {
        self.0 &= !(1 << place);
    }

    pub fn contains(self, place: usize) -> bool {
        self.0 >> place & 1 != 0
    }

    pub fn is_empty(self) -> bool {
        self.0 == 0
    }

    pub fn union(self, other: Places) -> Places {
        Places(self.0 | other.0)
    }

    pub fn without(self, other: Places) -> Places {
        Places(self.0 & !other.0)
    }

    /// Those that are not before this one.
    pub fn from(self, place: usize) -> Places {
        Places(self.0 >> place << place)
    }

    /// Those before this one.
    pub fn before(self, place: usize) -> Places {
        self.without(self.from(place))
    }

    pub fn first(self) -> Option<usize> {
        (!self.is_empty()).then(|| self.0.trailing_zeros() as usize)
    }

    pub fn last(self) -> Option<usize> {
        (!self.is_empty()).then(|| 127 - self.0.leading_zeros() as usize)
    }

    pub fn iter(self) -> impl Iterator<Item = usize> {
        let mut rest = self.0;
        std::iter::from_fn(move || {
            let place = rest.trailing_zeros() as usize;
            let found = (rest != 0).then_some(place);
            rest &= rest.wrapping_sub(1);
            found
        })
    }
}
