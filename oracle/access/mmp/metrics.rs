
/// A state made from its fields, and taken apart.
pub mod oracle_access {
    use super::MmpMetrics;
    use crate::cases::{ewma, srtt};

    macro_rules! fields {
        ([$($trend:ident,)*] $($name:ident: $type:ty,)*) => {
            #[derive(Clone, Copy)]
            pub struct Fields {
                pub srtt: srtt::State,
                $(pub $trend: ewma::State,)*
                $(pub $name: $type,)*
            }

            pub fn state(f: &Fields) -> MmpMetrics {
                MmpMetrics {
                    srtt: f.srtt.commit(),
                    $($trend: f.$trend.commit(),)*
                    $($name: f.$name,)*
                }
            }

            pub fn fields(s: &MmpMetrics) -> Fields {
                Fields {
                    srtt: srtt::read(&s.srtt),
                    $($trend: ewma::read(&s.$trend),)*
                    $($name: s.$name,)*
                }
            }
        };
    }

    fields! {
        [rtt_trend, loss_trend, goodput_trend, jitter_trend, etx_trend,]
        delivery_ratio_forward: f64,
        delivery_ratio_reverse: f64,
        etx: f64,
        goodput_bps: f64,
        prev_rr_cum_packets: u64,
        prev_rr_cum_bytes: u64,
        prev_rr_highest_counter: u64,
        prev_rr_ecn_ce: u32,
        prev_rr_reorder: u32,
        prev_rr_ms: Option<u64>,
        has_prev_rr: bool,
        prev_reverse_packets: u64,
        prev_reverse_highest: u64,
        has_prev_reverse: bool,
        reports_seen: u64,
        rtt_samples: u64,
        rtt_zero: u64,
        rtt_arith_fail: u64,
        last_rtt_ms: Option<u32>,
    }
}
