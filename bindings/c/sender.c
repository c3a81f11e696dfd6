/* A daemon in C: a record that it owns, lent to each call. Prints what came out; ends with status 1 where something else did than is said here. */
#include <stdio.h>

#include "siwolkert.h"

_Static_assert(sizeof(struct siwolkert_sender_state) == 72, "size of the sender's record");
_Static_assert(offsetof(struct siwolkert_sender_state, cumulative_packets_sent) == 0, "cumulative_packets_sent");
_Static_assert(offsetof(struct siwolkert_sender_state, cumulative_bytes_sent) == 8, "cumulative_bytes_sent");
_Static_assert(offsetof(struct siwolkert_sender_state, interval_start_counter) == 16, "interval_start_counter");
_Static_assert(offsetof(struct siwolkert_sender_state, interval_start_timestamp) == 24, "interval_start_timestamp");
_Static_assert(offsetof(struct siwolkert_sender_state, interval_bytes_sent) == 28, "interval_bytes_sent");
_Static_assert(offsetof(struct siwolkert_sender_state, last_counter) == 32, "last_counter");
_Static_assert(offsetof(struct siwolkert_sender_state, last_timestamp) == 40, "last_timestamp");
_Static_assert(offsetof(struct siwolkert_sender_state, interval_has_data) == 44, "interval_has_data");
_Static_assert(offsetof(struct siwolkert_sender_state, has_last_report) == 45, "has_last_report");
_Static_assert(offsetof(struct siwolkert_sender_state, last_report_ms) == 48, "last_report_ms");
_Static_assert(offsetof(struct siwolkert_sender_state, report_interval_ms) == 56, "report_interval_ms");
_Static_assert(offsetof(struct siwolkert_sender_state, consecutive_send_failures) == 64, "consecutive_send_failures");
_Static_assert(offsetof(struct siwolkert_sender_state, srtt_sample_count) == 68, "srtt_sample_count");
_Static_assert(sizeof(struct siwolkert_sender_report) == 48, "size of a sender's report");
_Static_assert(offsetof(struct siwolkert_sender_report, interval_end_counter) == 8, "interval_end_counter");
_Static_assert(offsetof(struct siwolkert_sender_report, interval_start_timestamp) == 16, "interval_start_timestamp");
_Static_assert(offsetof(struct siwolkert_sender_report, interval_end_timestamp) == 20, "interval_end_timestamp");
_Static_assert(offsetof(struct siwolkert_sender_report, interval_bytes_sent) == 24, "interval_bytes_sent");
_Static_assert(offsetof(struct siwolkert_sender_report, cumulative_packets_sent) == 32, "cumulative_packets_sent");
_Static_assert(offsetof(struct siwolkert_sender_report, cumulative_bytes_sent) == 40, "cumulative_bytes_sent");

static int wrong;

static void expect(const char *what, unsigned long long got, unsigned long long said)
{
    printf("%s %s: %llu\n", got == said ? "ok   " : "WRONG", what, got);
    wrong |= got != said;
}

int main(void)
{
    struct siwolkert_sender_state state = {.report_interval_ms = 200};
    struct siwolkert_sender_report report = {0};
    bool some = false;
    uint64_t needed = 77, given = 77;
    uint8_t payload[47] = {0};
    int64_t jitter = 77;
    double etx = 77.0;

    expect("a new record keeps its rule", siwolkert_sender_check(&state), 0);
    expect("a frame is sent", siwolkert_sender_record_sent(&state, 10, 100, 500), 0);
    expect("another", siwolkert_sender_record_sent(&state, 11, 200, 600), 0);
    expect("packets", state.cumulative_packets_sent, 2);
    expect("bytes", state.cumulative_bytes_sent, 1100);
    expect("a report", siwolkert_sender_build_report(&state, 1000, &some, &report), 0);
    expect("is built", some, 1);
    expect("from counter", report.interval_start_counter, 10);
    expect("to counter", report.interval_end_counter, 11);
    expect("of bytes", report.interval_bytes_sent, 1100);
    expect("a second report", siwolkert_sender_build_report(&state, 2000, &some, &report), 0);
    expect("is not built", some, 0);
    expect("a frame of 2^32 bytes is refused by", siwolkert_sender_record_sent(&state, 12, 300, 4294967296), 3);
    expect("and the record is as it was", state.last_counter, 11);
    some = true;
    expect("a clock of 2^48 is refused by", siwolkert_sender_build_report(&state, 281474976710656, &some, &report), 2);
    expect("and nothing is written", some, 1);
    state.report_interval_ms = 281474976710656;
    expect("a record that breaks its rule is refused by", siwolkert_sender_check(&state), 1);
    expect("a payload of 47 bytes", siwolkert_check_sender_payload(payload, 47, &needed, &given), 0);
    expect("no length is written", needed + given, 154);
    expect("a receiver's of 47 is refused by", siwolkert_check_receiver_payload(payload, 47, &needed, &given), 7);
    expect("needed", needed, 67);
    expect("given", given, 47);
    expect("a jitter step", siwolkert_jitter_update(0, 16, &jitter), 0);
    expect("gives", (unsigned long long)jitter, 16);
    expect("a jitter below 0 is refused by", siwolkert_jitter_update(-1, 16, &jitter), 1);
    expect("ETX of 0.5 and 0.5", siwolkert_compute_etx(0.5, 0.5, &etx), 0);
    expect("is", (unsigned long long)etx, 4);
    expect("a ratio of 1.5 is refused by", siwolkert_compute_etx(1.5, 0.5, &etx), 11);
    return wrong;
}
