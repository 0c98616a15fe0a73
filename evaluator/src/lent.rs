//! Points answered from the numbers of a lent net, which may be no defined net: docs/SPECIFICATION.md, 9 to 11, to the
//! letter, with 23. On a defined net it must agree with module `point`.

use crate::interpolation::{Quadruple, factorials, quadruples};
use crate::placing::Placing;
use crate::point::{Call, Exact, Fraction, Placed, checked};
use crate::ratio::factorial;
use crate::unit::refuse_if;

fn local_place(b: &Quadruple, axes: [usize; 3]) -> [usize; 3] {
    let mut local = [0; 3];
    local[axes[0]] = b[1] + b[2] + b[3];
    local[axes[1]] = b[2] + b[3];
    local[axes[2]] = b[3];
    local
}

/// The sums over the window at one local place: of the shares, and of shares times corrections and uncertainties.
struct Blended {
    shares: i128,
    correction: i128,
    uncertainty: i128,
}

fn blend(call: &Call, net: &[u32], placed: &Placed, window: &[(usize, [usize; 3])], local: [usize; 3]) -> Blended {
    let (v, cell) = (placed.multiplicities, placed.cell());
    let mut sums = Blended { shares: 0, correction: 0, uncertainty: 0 };
    for &(index, j) in window {
        let place = [0, 1, 2].map(|b| v.degree() * (cell[b] - j[b]) + local[b]);
        let share = i128::from(net[v.index(place)]);
        sums.shares += share;
        sums.correction += share * i128::from(call.corrections[index]);
        sums.uncertainty += share * i128::from(call.uncertainties[index]);
    }
    sums
}

/// The answer of a call to which these numbers are lent; `call.net_length` is their count.
pub fn answer(call: &Call, net: &[u32]) -> Exact {
    assert_eq!(call.net_length, net.len());
    let placed = checked(call)?;
    let degree = placed.multiplicities.degree();
    let Placing { order, weights, .. } = Placing::of(&placed);
    let axes = order.map(|axis| usize::from(axis) - 1);
    let all = quadruples(degree);
    let window: Vec<_> = placed.window().collect();
    let blend = |b| blend(call, net, &placed, &window, local_place(b, axes));
    let blended: Vec<Blended> = all.iter().map(blend).collect();
    refuse_if(blended.iter().any(|sums| sums.shares != factorial(degree)), 23)?;
    let (mut numerator, mut uncertainty) = (0, 0);
    for (b, sums) in all.iter().zip(&blended) {
        let powers: i128 = (0..4).map(|i| i128::from(weights[i]).pow(b[i] as u32)).product();
        let bernstein = factorial(degree) / factorials(b) * powers;
        numerator += bernstein * sums.correction;
        uncertainty += bernstein * sums.uncertainty;
    }
    Ok(Fraction::new(numerator, uncertainty, placed.denominator))
}

#[cfg(test)]
mod tests {
    use super::*;
    use crate::field::Block;
    use crate::net::{Multiplicities, Net};
    use crate::unit::{Refusal, Sizes, Unit};

    /// The call over the net and the sizes of the example in docs/SPECIFICATION.md, 2.5 and 8.5, at divisor 4.
    fn call(block: &Block, coordinates: [i32; 3]) -> Call<'_> {
        let v = Multiplicities::new([2, 1, 1, 1]).unwrap();
        let unit = Unit::EMPTY.with_net(v).with_block(block.sizes, block.origin);
        let (corrections, uncertainties) = (&block.corrections[..], &block.uncertainties[..]);
        Call { unit, net_length: v.places(), corrections, uncertainties, coordinates, divisor: 4 }
    }

    fn block() -> Block {
        Block::constant(Sizes::new([4, 3, 2]).unwrap(), 10, 3)
    }

    #[test]
    fn shares_that_do_not_add_up_are_seen_where_they_weigh_nothing() {
        let block = block();
        let mut numbers = Net::of(Multiplicities::new([2, 1, 1, 1]).unwrap()).numbers;
        // At (0, 0, 0), which is the low corner's local place alone.
        numbers[0] = 1;
        for point in [[10, 5, 7], [16, 5, 7], [16, 12, 8]] {
            assert_eq!(answer(&call(&block, point), &numbers), Err(Refusal::from(23)));
        }
    }
}
