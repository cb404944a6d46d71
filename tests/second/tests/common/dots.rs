//! Sets of dots, a byte per eight of them, as a picture has them.

use super::random::Random;

/// Any one of them, or none if there is none.
pub fn one_dot(dots: &[u8], random: &mut Random) -> Vec<u8> {
    let mut one = vec![0; dots.len()];
    let bytes: Vec<usize> = (0..dots.len()).filter(|&at| dots[at] != 0).collect();
    if !bytes.is_empty() {
        let at = random.pick(&bytes);
        one[at] = 1 << dots[at].trailing_zeros();
    }
    one
}

pub fn is_dark(picture: &[u8]) -> bool {
    picture.iter().all(|&byte| byte == 0)
}

pub fn united(a: &[u8], b: &[u8]) -> Vec<u8> {
    a.iter().zip(b).map(|(a, b)| a | b).collect()
}

pub fn both(a: &[u8], b: &[u8]) -> Vec<u8> {
    a.iter().zip(b).map(|(a, b)| a & b).collect()
}

pub fn without(a: &[u8], b: &[u8]) -> Vec<u8> {
    a.iter().zip(b).map(|(a, b)| a & !b).collect()
}
