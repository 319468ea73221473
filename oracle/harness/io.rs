// What our code takes from the kit to print a number: its digits, and how many there are.
fn put(text: &str, digits: &mut [u8]) -> usize {
    digits[..text.len()].copy_from_slice(text.as_bytes());
    text.len()
}

pub fn decimal(n: u64, digits: &mut [u8]) -> usize {
    put(&n.to_string(), digits)
}

pub fn hex(n: u64, count: usize, digits: &mut [u8]) -> usize {
    put(&format!("{n:0count$x}"), digits)
}
