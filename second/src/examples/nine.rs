//! Five weeks of a controller that writes every number in nine bytes, so that
//! it can fill them in afterwards.

use super::drives::{in_use, spare, Entered};
use crate::generate::spelling;
use crate::v64;

const ENTERED: Entered = Entered {
    hours_from: 3,
    weeks: &[
        &[
            in_use("KR-3001", 5, 127, 10_110),
            in_use("KR-3002", 5, 256, 20_402),
            in_use("KR-3007", 5, 402, 31_977),
        ],
        &[],
        &[
            in_use("KR-3011", 5, 311, 24_870),
            in_use("KR-3012", 5, 128, 10_215),
            spare("LM-0030", 5, 0, 0),
        ],
        &[
            in_use("KR-3020", 6, 300, 23_904),
            in_use("KR-3021", 6, 255, 20_288),
        ],
        &[
            in_use("KR-3026", 6, 129, 10_300),
            spare("LM-0033", 6, 1, 66),
        ],
    ],
};

/// Ten drives, entered over five weeks.
pub fn nine() -> Vec<u8> {
    ENTERED.file(spelling::nine)
}

/// The same ledger in shortest form.
pub fn nine_short() -> Vec<u8> {
    ENTERED.file(v64::write)
}
