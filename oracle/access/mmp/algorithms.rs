
/// States made from their fields, and taken apart.
pub mod oracle_access {
    use super::{DualEwma, JitterEstimator, OwdTrendDetector, SpinBitState, SrttEstimator};
    use alloc::collections::VecDeque;

    pub fn jitter(jitter_q4: i64) -> JitterEstimator {
        JitterEstimator { jitter_q4 }
    }

    pub fn jitter_q4(s: &JitterEstimator) -> i64 {
        s.jitter_q4
    }

    pub fn srtt(srtt_us: i64, rttvar_us: i64, initialized: bool) -> SrttEstimator {
        SrttEstimator {
            srtt_us,
            rttvar_us,
            initialized,
        }
    }

    pub fn ewma(short: f64, long: f64, initialized: bool) -> DualEwma {
        DualEwma {
            short,
            long,
            initialized,
        }
    }

    pub fn owd(capacity: usize, samples: VecDeque<(u32, i64)>) -> OwdTrendDetector {
        OwdTrendDetector { samples, capacity }
    }

    pub fn owd_window(s: &OwdTrendDetector) -> (usize, VecDeque<(u32, i64)>) {
        (s.capacity, s.samples.clone())
    }

    pub fn owd_size(s: &OwdTrendDetector) -> (usize, usize) {
        (s.capacity, s.samples.len())
    }

    pub fn owd_set(s: &mut OwdTrendDetector, k: usize, pair: (u32, i64)) {
        s.samples[k] = pair;
    }

    pub fn spin(
        is_initiator: bool,
        current_value: bool,
        highest_counter_for_spin: u64,
        last_edge_ms: Option<u64>,
    ) -> SpinBitState {
        SpinBitState {
            is_initiator,
            current_value,
            highest_counter_for_spin,
            last_edge_ms,
        }
    }

    pub fn spin_fields(s: &SpinBitState) -> (bool, bool, u64, Option<u64>) {
        (s.is_initiator, s.current_value, s.highest_counter_for_spin, s.last_edge_ms)
    }
}
