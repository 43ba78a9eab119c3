//! The edges of pt_rates.

#[derive(Clone, Copy, PartialEq, Eq)]
#[repr(C)]
pub struct Edge {
    pub from: u32,
    pub produced: u64,
    pub to: u32,
    pub consumed: u64,
}

impl Edge {
    pub fn is_channel(&self, n: u32) -> bool {
        self.from < n && self.to < n && (1..=1_000_000).contains(&self.produced) && (1..=1_000_000).contains(&self.consumed)
    }
}
