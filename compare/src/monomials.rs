//! Monomials by their exponents, and their order: lower degree first, and in one degree the larger exponent of v_0
//! first, then of v_1, and so on.

pub const MOST_VERTICES: usize = 24;

/// The exponents of v_0, v_1, …
pub type Monomial = [u8; MOST_VERTICES];

pub const ONE: Monomial = [0; MOST_VERTICES];

/// A product of powers, each given as a vertex and its exponent.
pub fn monomial(powers: &[(usize, u8)]) -> Monomial {
    let mut exponents = ONE;
    for &(vertex, exponent) in powers {
        exponents[vertex] += exponent;
    }
    exponents
}

pub fn times(a: &Monomial, b: &Monomial) -> Monomial {
    std::array::from_fn(|vertex| a[vertex] + b[vertex])
}

/// The monomials in the first `vertices` variables of degree at most `degree`, in order.
pub fn up_to(vertices: usize, degree: usize) -> Vec<Monomial> {
    let mut found = Vec::new();
    for exact in 0..=degree {
        of_degree(&mut found, &mut ONE.clone(), 0, vertices, exact);
    }
    found
}

/// Puts the degree that is left on the variables from `vertex` on, in every way and in order.
fn of_degree(found: &mut Vec<Monomial>, monomial: &mut Monomial, vertex: usize, vertices: usize, left: usize) {
    if left == 0 {
        found.push(*monomial);
    } else if vertex < vertices {
        let least = if vertex + 1 == vertices { left } else { 0 };
        for exponent in (least..=left).rev() {
            monomial[vertex] = exponent as u8;
            of_degree(found, monomial, vertex + 1, vertices, left - exponent);
        }
        monomial[vertex] = 0;
    }
}

/// How many monomials there are in `vertices` variables of degree at most `degree`: the binomial number of
/// `vertices + degree` over `vertices`. Every number on the way is a binomial number too, so no division has a rest.
pub fn count(vertices: usize, degree: usize) -> u128 {
    (1..=vertices as u128).fold(1, |number, k| number * (degree as u128 + k) / k)
}

#[cfg(test)]
mod tests {
    use super::*;

    #[test]
    fn monomials_come_in_order() {
        let two = up_to(2, 2);
        assert_eq!(two[0], ONE);
        assert_eq!(two[1], monomial(&[(0, 1)]));
        assert_eq!(two[3], monomial(&[(0, 2)]));
        assert_eq!(two[4], monomial(&[(0, 1), (1, 1)]));
        assert_eq!(two[5], monomial(&[(1, 2)]));
        assert_eq!(two.len(), 6);
    }

    #[test]
    fn each_monomial_is_found_once() {
        for vertices in 0..6 {
            for degree in 0..6 {
                let all = up_to(vertices, degree);
                let distinct: std::collections::HashSet<_> = all.iter().collect();
                assert_eq!(all.len(), distinct.len());
                assert_eq!(all.len() as u128, count(vertices, degree));
            }
        }
    }
}
