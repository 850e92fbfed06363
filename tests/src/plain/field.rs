//! Arithmetic modulo a constant prime below 2^16; every product fits 32 bits.

pub fn subtract<const PRIME: u32>(left: u32, right: u32) -> u32 {
    if left < right {
        left + PRIME - right
    } else {
        left - right
    }
}

pub fn multiply<const PRIME: u32>(left: u32, right: u32) -> u32 {
    left * right % PRIME
}

/// left · right + added: at most (p − 1)² + p − 1, so still below 2^32.
pub fn multiply_add<const PRIME: u32>(left: u32, right: u32, added: u32) -> u32 {
    (left * right + added) % PRIME
}

/// The reciprocal of a nonzero residue: `product` times it stays equal to `rest`, which falls to 1.
pub fn reciprocal<const PRIME: u32>(residue: u32) -> u32 {
    let mut product = 1;
    let mut rest = residue;
    while rest != 1 {
        product = multiply::<PRIME>(product, PRIME - PRIME / rest);
        rest = PRIME % rest;
    }
    product
}
