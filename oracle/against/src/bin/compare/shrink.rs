//! Makes a case that differs smaller for as long as it still differs.

/// Something that is run on both sides.
pub trait Case: Clone {
    /// What differs, if anything does.
    fn differs(&self) -> Option<String>;
    /// Smaller cases, the smallest steps last; none of them is as large as this.
    fn smaller(&self) -> Box<dyn Iterator<Item = Self> + '_>;
    fn tell(&self) -> String;
}

pub fn shrunk<C: Case>(mut case: C) -> C {
    loop {
        let next = case.smaller().find(|c| c.differs().is_some());
        match next {
            Some(c) => case = c,
            None => return case,
        }
    }
}

/// Stretches of `n` things, longest first: halves, quarters, down to single ones.
pub fn stretches(n: usize) -> impl Iterator<Item = (usize, usize)> {
    let sizes = std::iter::successors(Some(n), |&s| (s > 1).then_some(s / 2)).filter(|&s| s > 0);
    sizes.flat_map(move |s| (0..n).step_by(s).map(move |at| (at, (at + s).min(n))))
}

/// The bytes with a stretch of units left out, for each stretch.
pub fn shorter(b: &[u8], unit: usize) -> impl Iterator<Item = Vec<u8>> + '_ {
    stretches(b.len() / unit).map(move |(from, to)| [&b[..from * unit], &b[to * unit..]].concat())
}

/// The bytes with a stretch of units zeroed, for each stretch that is not zero yet.
pub fn zeroed(b: &[u8], unit: usize) -> impl Iterator<Item = Vec<u8>> + '_ {
    let places = stretches(b.len() / unit).map(move |(from, to)| from * unit..to * unit);
    places.filter(|r| b[r.clone()].iter().any(|&x| x != 0)).map(|r| {
        let mut z = b.to_vec();
        z[r].fill(0);
        z
    })
}
