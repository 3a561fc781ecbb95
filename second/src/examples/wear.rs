//! Twenty weeks of a controller that writes every number in its shortest form.

use super::drives::{in_use, spare, Entered};
use crate::v64;

const ENTERED: Entered = Entered {
    hours_from: 9,
    weeks: &[
        &[
            in_use("KR-2041", 1, 118, 9_120),
            in_use("KR-2042", 1, 127, 9_876),
            in_use("KR-2057", 1, 402, 31_540),
            in_use("KR-2060", 1, 93, 7_411),
        ],
        &[
            in_use("KR-2071", 1, 128, 10_002),
            in_use("KR-2079", 1, 64, 5_230),
        ],
        &[
            in_use("KR-2083", 1, 211, 16_903),
            in_use("KR-2084", 1, 256, 20_480),
            in_use("KR-2090", 1, 187, 14_377),
        ],
        &[],
        &[in_use("KR-2102", 1, 255, 19_668), spare("LM-0007", 1, 0, 0)],
        &[in_use("KR-2110", 2, 142, 11_064)],
        &[
            in_use("KR-2118", 2, 299, 24_001),
            in_use("KR-2121", 2, 300, 24_112),
            in_use("KR-2122", 2, 76, 6_018),
        ],
        &[
            in_use("KR-2133", 2, 165, 13_150),
            in_use("KR-2140", 2, 301, 23_897),
        ],
        &[
            in_use("KR-2141", 2, 49, 3_905),
            in_use("KR-2156", 2, 233, 18_724),
        ],
        &[],
        &[
            in_use("KR-2160", 2, 311, 25_377),
            in_use("KR-2163", 2, 104, 8_209),
            spare("LM-0011", 2, 1, 72),
        ],
        &[
            in_use("KR-2177", 3, 256, 20_115),
            in_use("KR-2181", 3, 198, 15_630),
        ],
        &[in_use("KR-2188", 3, 12, 960)],
        &[
            in_use("KR-2190", 3, 274, 21_846),
            in_use("KR-2196", 3, 88, 7_003),
            in_use("KR-2203", 3, 311, 24_790),
        ],
        &[
            in_use("KR-2204", 3, 153, 12_244),
            in_use("KR-2219", 3, 240, 19_310),
        ],
        &[in_use("KR-2225", 3, 37, 2_981), spare("LM-0015", 3, 0, 3)],
        &[
            in_use("KR-2230", 3, 172, 13_699),
            in_use("KR-2231", 4, 256, 20_871),
        ],
        &[in_use("KR-2246", 4, 402, 32_208)],
        &[
            in_use("KR-2250", 4, 129, 10_333),
            in_use("KR-2254", 4, 220, 17_562),
            in_use("KR-2261", 4, 61, 4_876),
        ],
        &[
            in_use("KR-2267", 4, 195, 15_480),
            spare("LM-0021", 4, 2, 140),
        ],
    ],
};

/// Forty drives, entered over twenty weeks.
pub fn wear() -> Vec<u8> {
    ENTERED.file(v64::write)
}
