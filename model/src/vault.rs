//! The vault's numbers.

use crate::Params;

/// W, V and R of each lane; epoch, checkpoint version, checkpoint seal number.
#[derive(Clone, Debug, PartialEq, Eq)]
pub struct Vault {
    pub w: Vec<u64>,
    pub v: Vec<u64>,
    pub r: Vec<u64>,
    pub e: u64,
    pub s: u64,
    pub n: u64,
}

impl Vault {
    /// A new one: all zero.
    pub fn new(params: &Params) -> Vault {
        let zeros = vec![0; params.lanes];
        Vault { w: zeros.clone(), v: zeros.clone(), r: zeros, e: 0, s: 0, n: 0 }
    }

    /// Load's rule and the maximum.
    pub fn legal(&self, params: &Params) -> bool {
        let lanes = (0..params.lanes).all(|i| {
            let (w, v, r) = (self.w[i], self.v[i], self.r[i]);
            v <= w && r <= w && (r <= v || r == w) && w <= params.counter
        });
        lanes && [self.e, self.s, self.n].iter().all(|&x| x <= params.counter)
    }
}
