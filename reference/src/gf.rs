//! The field of 256 bytes: sums without carry, products modulo x^8 + x^4 + x^3 + x + 1.
//!
//! The loops over slices multiply by one factor bit by bit, without branches or tables: the
//! compiler makes them wide, and they are then faster than look-ups.

/// What x^8 is modulo the polynomial: x^4 + x^3 + x + 1.
const REDUCED: u8 = 0b0001_1011;

/// All ones where the lowest bit is set, else 0.
#[inline(always)]
fn mask(bit: u8) -> u8 {
    0u8.wrapping_sub(bit & 1)
}

#[inline(always)]
fn times_x(a: u8) -> u8 {
    (a << 1) ^ (REDUCED & mask(a >> 7))
}

#[inline(always)]
pub fn product(a: u8, b: u8) -> u8 {
    let mut sum = 0;
    let mut shifted = a;
    for bit in 0..8 {
        sum ^= shifted & mask(b >> bit);
        shifted = times_x(shifted);
    }
    sum
}

/// The byte whose product with `a` is 1; none for 0. Since a^255 is 1, it is a^254.
pub fn inverse(a: u8) -> Option<u8> {
    if a == 0 {
        return None;
    }
    let mut power = 1;
    for _ in 0..254 {
        power = product(power, a);
    }
    Some(power)
}

/// `dst += factor · src`, place by place, as far as the shorter goes.
pub fn add_product(dst: &mut [u8], factor: u8, src: &[u8]) {
    for (to, from) in dst.iter_mut().zip(src) {
        *to ^= product(*from, factor);
    }
}

/// `dst = factor · dst + src`, place by place: one step of Horner's rule for many polynomials.
pub fn multiply_and_add(dst: &mut [u8], factor: u8, src: &[u8]) {
    for (to, from) in dst.iter_mut().zip(src) {
        *to = product(*to, factor) ^ *from;
    }
}

/// `dst = factor · dst`.
pub fn scale(dst: &mut [u8], factor: u8) {
    for to in dst {
        *to = product(*to, factor);
    }
}

#[cfg(test)]
mod tests {
    use super::*;

    #[test]
    fn three_products() {
        assert_eq!(product(2, 128), 27);
        assert_eq!(product(87, 131), 193);
        assert_eq!(product(3, 246), 1);
    }

    #[test]
    fn every_byte_but_0_has_an_inverse() {
        assert_eq!(inverse(0), None);
        for a in 1..=255 {
            assert_eq!(product(a, inverse(a).unwrap()), 1);
        }
    }

    #[test]
    fn slices_are_multiplied_place_by_place() {
        let src: Vec<u8> = (0..=255).collect();
        for factor in 0..=255 {
            let mut added = vec![9; 256];
            add_product(&mut added, factor, &src);
            let mut horner = src.clone();
            multiply_and_add(&mut horner, factor, &[9; 256]);
            let mut scaled = src.clone();
            scale(&mut scaled, factor);
            for a in 0..=255u8 {
                let value = product(a, factor);
                assert_eq!(value, product(factor, a));
                assert_eq!(added[a as usize], value ^ 9);
                assert_eq!(horner[a as usize], value ^ 9);
                assert_eq!(scaled[a as usize], value);
            }
        }
    }
}
