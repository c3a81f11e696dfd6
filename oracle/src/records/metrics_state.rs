//! `MmpMetrics`, its rule and its questions, as documents 01 and 02 read them, beside the commit's.

use crate::cases::ewma;
use crate::proto::mmp::metrics::oracle_access::{fields, state, Fields};
use crate::proto::mmp::metrics::MmpMetrics;
use crate::proto::mmp::wire::ReceiverReport;
use crate::records::metrics_call::Call;
use crate::records::report_kind::{kind_of, Kind};
use crate::script::bounds::{bits, first_no, in_range, optional, MAX_MS};
use crate::script::case::{commit, Case, Numbers};

/// The greatest goodput: 2^74 bytes per second.
pub const MAX_GOODPUT: f64 = 18_889_465_931_478_580_854_784.0;
/// The greatest ETX.
pub const MAX_ETX: f64 = 100.0;

#[derive(Clone, Copy)]
pub struct Metrics {
    pub fields: Fields,
    /// Stale reports, and fresh ones whose echo was 0, document 02, W-205: the commit has no such fields.
    pub stale: u64,
    pub no_echo: u64,
}

impl Metrics {
    /// A new state of the commit's.
    pub fn of(s: &MmpMetrics) -> Self {
        let fields = fields(s);
        assert!(fields.reports_seen == 0, "a new state has seen no report");
        Self {
            fields,
            stale: 0,
            no_echo: 0,
        }
    }

    /// Reports seen and, in the order of `Kind`, those of each kind.
    pub fn tallies(&self) -> [u64; 6] {
        let f = &self.fields;
        [
            f.reports_seen,
            self.stale,
            self.no_echo,
            f.rtt_samples,
            f.rtt_zero,
            f.rtt_arith_fail,
        ]
    }

    pub fn set_tallies(&mut self, tallies: [u64; 6]) {
        let f = &mut self.fields;
        [
            f.reports_seen,
            self.stale,
            self.no_echo,
            f.rtt_samples,
            f.rtt_zero,
            f.rtt_arith_fail,
        ] = tallies;
    }

    pub fn trends(&self) -> [ewma::State; 5] {
        let f = &self.fields;
        [f.rtt_trend, f.loss_trend, f.goodput_trend, f.jitter_trend, f.etx_trend]
    }

    pub fn trend_mut(&mut self, i: usize) -> &mut ewma::State {
        let f = &mut self.fields;
        match i {
            0 => &mut f.rtt_trend,
            1 => &mut f.loss_trend,
            2 => &mut f.goodput_trend,
            3 => &mut f.jitter_trend,
            _ => &mut f.etx_trend,
        }
    }

    pub fn keeps(&self) -> bool {
        let f = &self.fields;
        let [seen, kinds @ ..] = self.tallies().map(u128::from);
        f.prev_rr_ms.is_none_or(|ms| ms <= MAX_MS)
            && f.srtt.keeps()
            && self.trends().iter().all(|trend| trend.keeps())
            && in_range(f.delivery_ratio_forward, 0.0, 1.0)
            && in_range(f.delivery_ratio_reverse, 0.0, 1.0)
            && in_range(f.etx, 1.0, MAX_ETX)
            && in_range(f.goodput_bps, 0.0, MAX_GOODPUT)
            && kinds.iter().sum::<u128>() == seen
    }

    /// The record, each float by the pattern that is asked for.
    fn record(&self, pattern: fn(f64) -> u64) -> Vec<u64> {
        let f = &self.fields;
        let mut all = f.srtt.numbers().to_vec();
        for trend in self.trends() {
            all.extend([pattern(trend.short), pattern(trend.long), trend.initialized.into()]);
        }
        all.extend([f.delivery_ratio_forward, f.delivery_ratio_reverse, f.etx, f.goodput_bps].map(pattern));
        all.extend([f.prev_rr_cum_packets, f.prev_rr_cum_bytes, f.prev_rr_highest_counter]);
        all.extend([f.prev_rr_ecn_ce, f.prev_rr_reorder].map(u64::from));
        all.extend(optional(f.prev_rr_ms));
        all.push(f.has_prev_rr.into());
        all.extend([f.prev_reverse_packets, f.prev_reverse_highest, f.has_prev_reverse.into()]);
        all.extend([f.reports_seen, f.rtt_samples, f.rtt_zero, f.rtt_arith_fail]);
        all.extend(optional(f.last_rtt_ms.map(u64::from)));
        all.extend([self.stale, self.no_echo]);
        all
    }

    /// As the answers have it.
    pub fn numbers(&self) -> Vec<u64> {
        self.record(bits)
    }

    fn refusal(&self, call: &Call) -> u64 {
        let mut questions = vec![(1, self.keeps())];
        if let Call::Process { now_ms, .. } = call {
            questions.push((2, *now_ms <= MAX_MS));
            questions.push((10, self.fields.reports_seen < u64::MAX));
        }
        first_no(&questions)
    }

    /// The kind of a report on this record.
    fn kind(&self, report: &ReceiverReport, our_timestamp_ms: u32) -> Kind {
        let f = &self.fields;
        let kept = [
            f.prev_rr_highest_counter,
            f.prev_rr_cum_packets,
            f.prev_rr_cum_bytes,
            f.prev_rr_ecn_ce.into(),
            f.prev_rr_reorder.into(),
        ];
        kind_of(f.has_prev_rr.then_some(kept), report, our_timestamp_ms)
    }

    /// The kind that the commit shows, by its log entry and by which of its counters rose; none where these do not agree.
    fn told(&self, log: u64, after: &Fields) -> Option<Kind> {
        let f = &self.fields;
        let rises = [
            after.reports_seen - f.reports_seen,
            after.rtt_samples - f.rtt_samples,
            after.rtt_zero - f.rtt_zero,
            after.rtt_arith_fail - f.rtt_arith_fail,
        ];
        match (log, rises) {
            (1, [1, 0, 0, 0]) => Some(Kind::Stale),
            (0, [1, 0, 0, 0]) => Some(Kind::NoEcho),
            (2, [1, 1, 0, 0]) => Some(Kind::Sample),
            (3, [1, 0, 1, 0]) => Some(Kind::Zero),
            (3, [1, 0, 0, 1]) => Some(Kind::Failure),
            _ => None,
        }
    }

    /// The state after an accepted call that left these fields: a report that the commit does not count by its kind is counted here.
    fn after(&self, fields: Fields, kind: Option<Kind>) -> Metrics {
        let one_of = |of| u64::from(kind == Some(of));
        Metrics {
            fields,
            stale: self.stale + one_of(Kind::Stale),
            no_echo: self.no_echo + one_of(Kind::NoEcho),
        }
    }

    /// The case of a call, and the state after it.
    pub fn call(&self, call: &Call) -> (Case, Metrics) {
        let line = Numbers::of(&[call.number()]).and(&self.record(f64::to_bits)).and(&call.arguments());
        if let Call::KeepsRule = call {
            return (Case::new(line, (Numbers::of(&[self.keeps().into()]), true)), *self);
        }
        let refusal = self.refusal(call);
        if let Call::Stale | Call::NoEcho = call {
            let count = if let Call::Stale = call { self.stale } else { self.no_echo };
            let value = if refusal == 0 { count } else { 0 };
            return (Case::new(line, (Numbers::of(&[refusal, value]), true)), *self);
        }
        // Where the count of reports is full, the commit panics.
        assert!(
            refusal < 9 || commit(|| call.run(&mut state(&self.fields))).is_none(),
            "the commit answers where {refusal} refuses"
        );
        let kind = match call {
            Call::Process {
                report, our_timestamp_ms, ..
            } if refusal == 0 => Some(self.kind(report, *our_timestamp_ms)),
            _ => None,
        };
        let (values, after) = if refusal > 0 {
            (vec![0; call.values()], *self)
        } else {
            let mut s = state(&self.fields);
            let values = call.run(&mut s);
            let fields = fields(&s);
            assert!(
                kind.is_none() || kind == self.told(values[1], &fields),
                "the commit's log and counters tell another kind"
            );
            (values, self.after(fields, kind))
        };
        assert!(refusal > 0 || after.keeps(), "an accepted call leaves a state that keeps the rule");
        let mut answer = Numbers::of(&[refusal]).and(&values);
        if call.moves() {
            answer = answer.and(&after.numbers());
        }
        let case = Case::new(line, (answer, refusal > 0)).report(kind, self.tallies());
        (case, after)
    }
}
