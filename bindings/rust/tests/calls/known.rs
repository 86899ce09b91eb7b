//! Numbers of each field that are worked out by hand.

use volgwain::{BabyBear, Field, KoalaBear};

/// A field of which these numbers are known. `p` is its modulus.
pub trait Known: Field {
    /// (p + 1) / 2.
    const HALF: u32;
    /// (3p + 1) / 4.
    const QUARTER: u32;
    /// (p + 3) / 4.
    const THREE_QUARTERS: u32;
    const SIXTH: u32;
    const MINUS_ONE: u32;
    /// (p - 1) / 2.
    const MINUS_HALF: u32;
    /// X * X^3 is W, so 1/X is X^3 / W.
    const INVERSE_OF_X: [u32; 4];
    /// (X + 1) * (1 - X + X^2 - X^3) is 1 - X^4 = 1 - W.
    const INVERSE_OF_X_PLUS_1: [u32; 4];
}

impl Known for BabyBear {
    const HALF: u32 = 1_006_632_961;
    const QUARTER: u32 = 1_509_949_441;
    const THREE_QUARTERS: u32 = 503_316_481;
    // (5p + 1) / 6
    const SIXTH: u32 = 1_677_721_601;
    const MINUS_ONE: u32 = 2_013_265_920;
    const MINUS_HALF: u32 = 1_006_632_960;
    // 1/11 is (3p + 1) / 11
    const INVERSE_OF_X: [u32; 4] = [0, 0, 0, 549_072_524];
    // -1/10 is (p - 1) / 10
    const INVERSE_OF_X_PLUS_1: [u32; 4] = [201_326_592, 1_811_939_329, 201_326_592, 1_811_939_329];
}

impl Known for KoalaBear {
    const HALF: u32 = 1_065_353_217;
    const QUARTER: u32 = 1_598_029_825;
    const THREE_QUARTERS: u32 = 532_676_609;
    // (p + 1) / 6
    const SIXTH: u32 = 355_117_739;
    const MINUS_ONE: u32 = 2_130_706_432;
    const MINUS_HALF: u32 = 1_065_353_216;
    // 1/3 is (p + 1) / 3
    const INVERSE_OF_X: [u32; 4] = [0, 0, 0, 710_235_478];
    // over -2, and -1/2 is (p - 1) / 2
    const INVERSE_OF_X_PLUS_1: [u32; 4] =
        [1_065_353_216, 1_065_353_217, 1_065_353_216, 1_065_353_217];
}

#[test]
fn the_fields_are_known() {
    assert_eq!((BabyBear::MODULUS, BabyBear::W), (15 * (1 << 27) + 1, 11));
    assert_eq!((KoalaBear::MODULUS, KoalaBear::W), (127 * (1 << 24) + 1, 3));
}
