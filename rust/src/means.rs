//! Exact half-line means of a VV5300.

use crate::{Kind, Profile, Refusal};

/// A half of a line: its exact mean, and 64 times the sensor's mean minus the sum of its pixels.
#[derive(Clone, Copy, PartialEq, Debug)]
pub struct Half {
    pub mean: f64,
    pub difference: i32,
}

/// Image places 16 to 79, and 80 to 143, of a visible line's body, beside the two means that the sensor sent after it. Refused: 11, 23, 15, 16.
pub fn half_means(profile: Profile, kind: Kind, body: &[u8], sent: (u8, u8)) -> Result<[Half; 2], Refusal> {
    let mut places = ([0.0; 2], [0; 2]);
    match raw::half_means(profile as u8, kind as u8, body, sent, &mut places.0, &mut places.1) {
        0 => Ok([0, 1].map(|i| Half { mean: places.0[i], difference: places.1[i] })),
        n => Err(Refusal::answered(n)),
    }
}

/// The exported function, in numbers.
pub mod raw {
    extern "C" {
        fn fluturenc_half_means(
            profile: u8,
            kind: u8,
            body: *const u8,
            body_length: usize,
            first: u8,
            second: u8,
            mean1: *mut f64,
            mean2: *mut f64,
            beside1: *mut i32,
            beside2: *mut i32,
        ) -> u8;
    }

    /// 0, and the means and the differences in their places; or the refusal.
    pub fn half_means(profile: u8, kind: u8, body: &[u8], sent: (u8, u8), means: &mut [f64; 2], differences: &mut [i32; 2]) -> u8 {
        let ([mean1, mean2], [beside1, beside2]) = (means, differences);
        unsafe { fluturenc_half_means(profile, kind, body.as_ptr(), body.len(), sent.0, sent.1, mean1, mean2, beside1, beside2) }
    }
}

#[cfg(test)]
mod tests {
    use super::*;

    #[test]
    fn means_are_exact() {
        let mut body = [7; 168];
        body[2..166].fill(1);
        body[4 + 16] = 254;
        body[4 + 80..4 + 144].fill(254);
        // 253 more than 64 ones; and 64 times 254.
        let wanted = [Half { mean: 317.0 / 64.0, difference: 16_256 - 317 }, Half { mean: 254.0, difference: -16_192 }];
        assert_eq!(half_means(Profile::VV5300, Kind::Visible, &body, (254, 1)), Ok(wanted));
    }

    #[test]
    fn a_refused_call_leaves_its_places() {
        let (mut means, mut differences) = ([1.5; 2], [2; 2]);
        let mut call = |profile, kind, body: &[u8]| raw::half_means(profile, kind, body, (0, 0), &mut means, &mut differences);
        assert_eq!([call(0, 1, &[]), call(1, 1, &[]), call(1, 3, &[]), call(1, 3, &[7; 168])], [11, 23, 15, 16]);
        assert_eq!((means, differences), ([1.5; 2], [2; 2]));
    }
}
