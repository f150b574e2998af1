//! Exact half-line means of a VV5300 (02, A10).

use crate::layout::{body_allowed, mean_allowed, Profile};

/// The mean of image places 16 to 79 and of 80 to 143, and 64 times the sensor's byte minus the sum of each; or the refusal.
pub fn half_means(profile: u8, kind: u8, body: &[u8], sent: (u8, u8)) -> Result<([f64; 2], [i32; 2]), u8> {
    if profile != 1 {
        return Err(11);
    }
    if kind != 3 {
        return Err(23);
    }
    if body.len() != 168 {
        return Err(15);
    }
    if !body_allowed(Profile::VV5300, kind, body) || !mean_allowed(kind, sent.0) || !mean_allowed(kind, sent.1) {
        return Err(16);
    }
    let image = &body[4..164];
    let sums = [&image[16..80], &image[80..144]].map(|half| half.iter().map(|p| i32::from(*p)).sum::<i32>());
    let means = sums.map(|sum| f64::from(sum) / 64.0);
    Ok((means, [64 * i32::from(sent.0) - sums[0], 64 * i32::from(sent.1) - sums[1]]))
}

#[cfg(test)]
mod tests {
    use super::*;

    #[test]
    fn means_are_exact() {
        let mut body = [7; 168];
        body[2..166].fill(1);
        body[4 + 16] = 254;
        body[4 + 80..4 + 144].fill(254);
        // 253 more than 64 ones; and 64 times 254.
        assert_eq!(half_means(1, 3, &body, (1, 254)), Ok(([317.0 / 64.0, 254.0], [64 - 317, 0])));
        assert_eq!(half_means(1, 3, &body, (254, 1)), Ok(([317.0 / 64.0, 254.0], [16_256 - 317, -16_192])));
    }

    #[test]
    fn refusals_come_in_their_order() {
        assert_eq!(half_means(0, 1, &[0], (0, 0)), Err(11));
        assert_eq!(half_means(1, 1, &[0], (0, 0)), Err(23));
        assert_eq!(half_means(1, 3, &[0], (0, 0)), Err(15));
        assert_eq!(half_means(1, 3, &[7; 168], (0, 7)), Err(16));
        assert_eq!(half_means(1, 3, &[0; 168], (7, 7)), Err(16));
    }
}
