//! Two digests of a long list, in steps that the players can prove: no product passes u64.

#[derive(Clone, Copy, Default)]
pub struct Digest {
    pub first: u64,
    pub second: u64,
}

fn mixed(x: u64, low: u64, high: u64) -> u64 {
    let product = ((x % (1 << 32)) * low).wrapping_add((x >> 32) * high);
    product ^ (product >> 31)
}

impl Digest {
    /// One word more: the order counts.
    pub fn then(self, x: u64) -> Self {
        Self {
            first: self
                .first
                .rotate_left(5)
                .wrapping_add(mixed(x, 2_654_435_761, 2_246_822_519)),
            second: self
                .second
                .rotate_left(11)
                .wrapping_add(mixed(x, 3_266_489_917, 668_265_263)),
        }
    }
    /// One entry more of a set, by the entry's own digest: the order does not count.
    pub fn with(self, entry: Digest) -> Self {
        Self {
            first: self.first.wrapping_add(entry.first),
            second: self.second.wrapping_add(entry.second),
        }
    }
}
