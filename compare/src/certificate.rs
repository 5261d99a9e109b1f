//! The bytes of a certificate: a head, a map with one bit for each product, and the coefficients that are not zero.

use crate::field::Field;
use std::collections::BTreeMap;

pub const FORM: u8 = 1;
pub const HEAD: usize = 6;

/// Coefficients by product number, none of them zero.
pub type Coefficients = BTreeMap<usize, u8>;

#[derive(Clone, Copy, Debug, PartialEq, Eq)]
pub struct Head {
    pub order: u8,
    pub vertices: u8,
    pub degree: u8,
    pub equations: u16,
}

impl Head {
    pub fn new(field: Field, vertices: usize, degree: usize, equations: usize) -> Head {
        Head { order: field.order(), vertices: vertices as u8, degree: degree as u8, equations: equations as u16 }
    }

    /// None where the bytes are too few or the form is another. The degree may be any.
    pub fn read(bytes: &[u8]) -> Option<Head> {
        match *bytes {
            [FORM, order, vertices, degree, high, low, ..] => {
                Some(Head { order, vertices, degree, equations: u16::from_be_bytes([high, low]) })
            }
            _ => None,
        }
    }

    pub fn bytes(&self) -> [u8; HEAD] {
        let [high, low] = self.equations.to_be_bytes();
        [FORM, self.order, self.vertices, self.degree, high, low]
    }
}

pub fn map_length(products: usize) -> usize {
    products.div_ceil(8)
}

pub fn write(head: Head, products: usize, coefficients: &Coefficients) -> Vec<u8> {
    let mut map = vec![0; map_length(products)];
    for product in coefficients.keys() {
        map[product / 8] |= 1 << (product % 8);
    }
    let mut bytes = head.bytes().to_vec();
    bytes.extend(map);
    bytes.extend(coefficients.values());
    bytes
}

/// The numbers of the standing bits of a map, in order.
pub fn standing(map: &[u8]) -> impl Iterator<Item = usize> + '_ {
    (0..8 * map.len()).filter(|bit| map[bit / 8] >> (bit % 8) & 1 == 1)
}
