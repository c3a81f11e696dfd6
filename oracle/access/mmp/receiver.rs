
/// States made from their fields, and taken apart; and the private halves of a frame.
pub mod oracle_access {
    use super::{GapTracker, ReceiverState};
    use crate::proto::mmp::algorithms::oracle_access::{jitter, jitter_q4, owd_size, owd_window};
    use crate::proto::mmp::algorithms::OwdTrendDetector;
    use alloc::collections::VecDeque;

    macro_rules! tracker {
        ($($name:ident: $type:ty,)*) => {
            #[derive(Clone, Copy, Default)]
            pub struct Tracker {
                $(pub $name: $type,)*
            }

            fn made(t: &Tracker) -> GapTracker {
                GapTracker {
                    $($name: t.$name,)*
                }
            }

            fn taken(t: &GapTracker) -> Tracker {
                Tracker {
                    $($name: t.$name,)*
                }
            }
        };
    }

    tracker! {
        expected_next: Option<u64>,
        in_burst: bool,
        current_burst_len: u16,
        burst_count: u32,
        max_burst_len: u16,
        total_burst_len: u64,
    }

    pub fn new_tracker() -> Tracker {
        taken(&GapTracker::new())
    }

    /// What a call on a tracker answers, and the tracker after it.
    fn on<T>(t: &Tracker, call: impl FnOnce(&mut GapTracker) -> T) -> (T, Tracker) {
        let mut tracker = made(t);
        let answer = call(&mut tracker);
        (answer, taken(&tracker))
    }

    pub fn observe(t: &Tracker, counter: u64) -> (u64, Tracker) {
        on(t, |tracker| tracker.observe(counter))
    }

    pub fn finish_burst(t: &Tracker) -> Tracker {
        on(t, GapTracker::finish_burst).1
    }

    pub fn take_interval_stats(t: &Tracker) -> ((u32, u16, u16), Tracker) {
        on(t, GapTracker::take_interval_stats)
    }

    macro_rules! fields {
        ($($name:ident: $type:ty,)*) => {
            /// All but the window.
            #[derive(Clone, Copy, Default)]
            pub struct Fields {
                $(pub $name: $type,)*
                pub jitter_q4: i64,
                pub gap_tracker: Tracker,
            }

            pub fn state(f: &Fields, owd_trend: OwdTrendDetector) -> ReceiverState {
                ReceiverState {
                    $($name: f.$name,)*
                    jitter: jitter(f.jitter_q4),
                    owd_trend,
                    gap_tracker: made(&f.gap_tracker),
                }
            }

            pub fn fields(s: &ReceiverState) -> Fields {
                Fields {
                    $($name: s.$name,)*
                    jitter_q4: jitter_q4(&s.jitter),
                    gap_tracker: taken(&s.gap_tracker),
                }
            }
        };
    }

    fields! {
        cumulative_packets_recv: u64,
        cumulative_bytes_recv: u64,
        cumulative_reorder_count: u64,
        highest_counter: u64,
        interval_packets_recv: u32,
        interval_bytes_recv: u32,
        owd_ref: Option<(u64, u32)>,
        ecn_ce_count: u32,
        last_sender_timestamp: u32,
        last_recv_ms: Option<u64>,
        rekey_jitter_grace_until_ms: Option<u64>,
        last_report_ms: Option<u64>,
        report_interval_ms: u64,
        interval_has_data: bool,
        srtt_sample_count: u32,
    }

    /// The window's capacity and its pairs, oldest first.
    pub fn window(s: &ReceiverState) -> (usize, VecDeque<(u32, i64)>) {
        owd_window(&s.owd_trend)
    }

    /// How many pairs the window may hold, and how many it holds.
    pub fn window_size(s: &ReceiverState) -> (usize, usize) {
        owd_size(&s.owd_trend)
    }

    /// The window itself, when nothing else of the state is wanted.
    pub fn into_window(s: ReceiverState) -> OwdTrendDetector {
        s.owd_trend
    }

    pub fn sample(s: &mut ReceiverState, sender_timestamp_ms: u32, now_ms: u64) {
        s.sample(sender_timestamp_ms, now_ms);
    }

    pub fn sample_owd(s: &mut ReceiverState, sender_timestamp_ms: u32, now_ms: u64) {
        s.sample_owd(sender_timestamp_ms, now_ms);
    }
}
