
/// A state made from its fields, and taken apart.
pub mod oracle_access {
    use super::SenderState;

    macro_rules! fields {
        ($($name:ident: $type:ty,)*) => {
            #[derive(Clone, Copy, Default)]
            pub struct Fields {
                $(pub $name: $type,)*
            }

            pub fn state(f: &Fields) -> SenderState {
                SenderState {
                    $($name: f.$name,)*
                }
            }

            pub fn fields(s: &SenderState) -> Fields {
                Fields {
                    $($name: s.$name,)*
                }
            }
        };
    }

    fields! {
        cumulative_packets_sent: u64,
        cumulative_bytes_sent: u64,
        interval_start_counter: u64,
        interval_start_timestamp: u32,
        interval_bytes_sent: u32,
        last_counter: u64,
        last_timestamp: u32,
        interval_has_data: bool,
        last_report_ms: Option<u64>,
        report_interval_ms: u64,
        consecutive_send_failures: u32,
        srtt_sample_count: u32,
    }
}
