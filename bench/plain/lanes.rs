//! Four numbers side by side. What is unsafe here needs SSE2 and nothing else, and all processors of x86_64 have that.
use std::arch::x86_64::*;
use std::ops::{Add, Mul};

#[derive(Clone, Copy)]
pub struct Four(__m128);

impl Four {
    pub fn new([a, b, c, d]: [f32; 4]) -> Four {
        Four(unsafe { _mm_setr_ps(a, b, c, d) })
    }

    pub fn all(v: f32) -> Four {
        Four(unsafe { _mm_set1_ps(v) })
    }

    /// The second numbers less the first, rounded.
    pub fn difference(first: &[i32], second: &[i32]) -> Four {
        let difference: [i32; 4] = std::array::from_fn(|k| second[k] - first[k]);
        Four::new(difference.map(|v| v as f32))
    }

    pub fn least(self, other: Four) -> Four {
        Four(unsafe { _mm_min_ps(self.0, other.0) })
    }

    /// Bit k says whether lane k reaches that of the other.
    pub fn reaches(self, other: Four) -> u32 {
        unsafe { _mm_movemask_ps(_mm_cmpge_ps(self.0, other.0)) as u32 }
    }

    /// The number of lane K in all lanes. K is 85 times the lane.
    pub fn spread<const K: i32>(self) -> Four {
        Four(unsafe { _mm_shuffle_ps::<K>(self.0, self.0) })
    }
}

/// The first numbers of four, the second, the third and the fourth.
pub fn turned([a, b, c, d]: [Four; 4]) -> [Four; 4] {
    unsafe {
        let (low, high) = (_mm_unpacklo_ps(a.0, b.0), _mm_unpacklo_ps(c.0, d.0));
        let (low_end, high_end) = (_mm_unpackhi_ps(a.0, b.0), _mm_unpackhi_ps(c.0, d.0));
        [
            Four(_mm_movelh_ps(low, high)),
            Four(_mm_movehl_ps(high, low)),
            Four(_mm_movelh_ps(low_end, high_end)),
            Four(_mm_movehl_ps(high_end, low_end)),
        ]
    }
}

impl Add for Four {
    type Output = Four;

    fn add(self, other: Four) -> Four {
        Four(unsafe { _mm_add_ps(self.0, other.0) })
    }
}

impl Mul for Four {
    type Output = Four;

    fn mul(self, other: Four) -> Four {
        Four(unsafe { _mm_mul_ps(self.0, other.0) })
    }
}

/// The least and the greatest of four places by lane.
pub fn extent(places: &[[i16; 4]; 4]) -> [[i16; 4]; 2] {
    unsafe {
        let [first, last] = std::mem::transmute::<[[i16; 4]; 4], [__m128i; 2]>(*places);
        let (low, high) = (_mm_min_epi16(first, last), _mm_max_epi16(first, last));
        let low = _mm_min_epi16(low, _mm_unpackhi_epi64(low, low));
        let high = _mm_max_epi16(high, _mm_unpackhi_epi64(high, high));
        std::mem::transmute(_mm_unpacklo_epi64(low, high))
    }
}
