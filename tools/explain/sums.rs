//! The sums of a point: at each local place the shares and blended numbers, and what these add to N and U.

use crate::library::{Block, Figure, Net};
use crate::placing::{Placing, Window};

/// An entry's share at a local place.
pub struct Share {
    pub entry: [usize; 3],
    pub net_place: [usize; 3],
    pub share: i128,
    pub correction: i128,
    pub uncertainty: i128,
}

pub struct LocalPlace {
    pub b: [usize; 4],
    pub local: [usize; 3],
    /// Of the entries whose share is not 0.
    pub shares: Vec<Share>,
    /// m!/(b0! b1! b2! b3!)
    pub ways: i128,
    /// L0^b0 × L1^b1 × L2^b2 × L3^b3
    pub weights: i128,
}

impl LocalPlace {
    pub fn shares_added(&self) -> i128 {
        self.shares.iter().map(|s| s.share).sum()
    }

    pub fn blended_correction(&self) -> i128 {
        self.shares.iter().map(|s| s.share * s.correction).sum()
    }

    pub fn blended_uncertainty(&self) -> i128 {
        self.shares.iter().map(|s| s.share * s.uncertainty).sum()
    }

    pub fn product(&self) -> i128 {
        self.ways * self.weights
    }

    pub fn to_numerator(&self) -> i128 {
        self.blended_correction() * self.product()
    }

    pub fn to_uncertainty(&self) -> i128 {
        self.blended_uncertainty() * self.product()
    }
}

/// How much an entry of the window counts at the point, in parts of the denominator.
pub struct Counted {
    pub entry: [usize; 3],
    pub parts: i128,
    /// Whether it has a share at any local place, also at one whose weights multiply to 0.
    pub has_share: bool,
}

pub struct Sums {
    pub places: Vec<LocalPlace>,
    pub counted: Vec<Counted>,
    pub figure: Figure,
}

pub fn factorial(n: usize) -> i128 {
    (1..=n as i128).product()
}

/// m! × D^m, for a divisor whose powers fit.
pub fn denominator(degree: usize, divisor: u32) -> i128 {
    factorial(degree) * i128::from(divisor).pow(degree as u32)
}

/// All b0, b1, b2, b3 with the sum m.
fn exponents(m: usize) -> Vec<[usize; 4]> {
    let mut all = Vec::new();
    for a1 in 0..=m {
        for a2 in 0..=a1 {
            for a3 in 0..=a2 {
                all.push([m - a1, a1 - a2, a2 - a3, a3]);
            }
        }
    }
    all
}

/// The entry's share stands in the net at m×(k−j) + local place.
fn share_of(net: &Net, block: &Block, cell: [usize; 3], entry: [usize; 3], local: [usize; 3]) -> Share {
    let net_place = [0, 1, 2].map(|b| net.degree() * (cell[b] - entry[b]) + local[b]);
    Share {
        entry,
        net_place,
        share: net.number_at(net_place).into(),
        correction: block.correction(entry).into(),
        uncertainty: block.uncertainty(entry).into(),
    }
}

fn local_place(
    net: &Net,
    block: &Block,
    placing: &Placing,
    entries: &[[usize; 3]],
    b: [usize; 4],
) -> LocalPlace {
    let local = placing.local_place(b);
    let shares = entries.iter().map(|&entry| share_of(net, block, placing.cell, entry, local));
    let powers = b.iter().zip(placing.weights).map(|(&n, weight)| i128::from(weight).pow(n as u32));
    LocalPlace {
        b,
        local,
        shares: shares.filter(|s| s.share != 0).collect(),
        ways: b.iter().fold(factorial(net.degree()), |ways, &n| ways / factorial(n)),
        weights: powers.product(),
    }
}

fn counted(entry: [usize; 3], places: &[LocalPlace]) -> Counted {
    let mut counted = Counted { entry, parts: 0, has_share: false };
    for place in places {
        for share in place.shares.iter().filter(|s| s.entry == entry) {
            counted.parts += share.share * place.product();
            counted.has_share = true;
        }
    }
    counted
}

impl Sums {
    /// For a window on the table, and a divisor whose powers fit.
    pub fn of(net: &Net, block: &Block, placing: &Placing, window: Window) -> Sums {
        let entries = window.entries();
        let places: Vec<_> = exponents(net.degree())
            .into_iter()
            .map(|b| local_place(net, block, placing, &entries, b))
            .collect();
        let figure = Figure {
            numerator: places.iter().map(LocalPlace::to_numerator).sum(),
            uncertainty: places.iter().map(LocalPlace::to_uncertainty).sum(),
            denominator: denominator(net.degree(), placing.point.divisor),
        };
        let counted = entries.iter().map(|&entry| counted(entry, &places)).collect();
        Sums { places, counted, figure }
    }
}
