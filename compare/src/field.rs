//! The fields with two and with four elements. An element is its code; the bits are the codes 0 and 1 of the four
//! values, so sum and product are the same for both.

#[derive(Clone, Copy, Debug, PartialEq, Eq)]
pub enum Field {
    Bits,
    FourValues,
}

impl Field {
    pub fn order(self) -> u8 {
        match self {
            Field::Bits => 2,
            Field::FourValues => 4,
        }
    }

    pub fn has_code(self, byte: u8) -> bool {
        byte < self.order()
    }
}

pub fn sum(a: u8, b: u8) -> u8 {
    a ^ b
}

/// With a = a0 + a1 α this is a0 b + a1 (α b), and α (b0 + b1 α) = b1 + (b0 + b1) α.
pub fn product(a: u8, b: u8) -> u8 {
    let (b0, b1) = (b & 1, b >> 1);
    let alpha_b = b1 | (b0 ^ b1) << 1;
    sum((a & 1) * b, (a >> 1) * alpha_b)
}

/// Every element but zero has order 1 or 3, so its square is its inverse. The inverse of zero is zero.
pub fn inverse(a: u8) -> u8 {
    product(a, a)
}

#[cfg(test)]
mod tests {
    use super::*;

    #[test]
    fn the_laws_hold() {
        assert_eq!(product(2, 2), 3);
        for a in 0..4 {
            assert_eq!(product(1, a), a);
            assert_eq!(product(0, a), 0);
            assert_eq!(product(a, inverse(a)), (a > 0) as u8);
            for b in 0..4 {
                assert_eq!(product(a, b), product(b, a));
                for c in 0..4 {
                    assert_eq!(product(a, product(b, c)), product(product(a, b), c));
                    assert_eq!(product(a, sum(b, c)), sum(product(a, b), product(a, c)));
                }
            }
        }
    }
}
