/* Proved link measurement: link target/staticlib/libsiwolkert.a, which tools/archive makes.
 *
 * Every call takes any numbers, states and buffers. It returns 0, or the number of the first question that is answered no, and then leaves what it was
 * lent as it was (the payload checks write their two lengths beside a 7, and only there):
 *   1 state rule   2 clock   3 frame size   4 windows   5 delay sample   6 output buffer
 *   7 payload      8 round trip   9 interval bounds   10 counter full   11 value or NaN
 * Pointers are not null and do not overlap, and a bool that is lent holds 0 or 1. */
#ifndef SIWOLKERT_H
#define SIWOLKERT_H

#include <stdbool.h>
#include <stddef.h>
#include <stdint.h>

#ifdef __cplusplus
extern "C" {
#endif

/* What an end keeps of the frames that it sends to one peer. A new record is all zeros but for a report interval, 200 ms unless the caller has another. */
struct siwolkert_sender_state {
    uint64_t cumulative_packets_sent;
    uint64_t cumulative_bytes_sent;
    uint64_t interval_start_counter;
    uint32_t interval_start_timestamp;
    uint32_t interval_bytes_sent;
    uint64_t last_counter;
    uint32_t last_timestamp;
    bool interval_has_data;
    bool has_last_report; /* last_report_ms is any number where there was none */
    uint64_t last_report_ms;
    uint64_t report_interval_ms;
    uint32_t consecutive_send_failures;
    uint32_t srtt_sample_count;
};

struct siwolkert_sender_report {
    uint64_t interval_start_counter;
    uint64_t interval_end_counter;
    uint32_t interval_start_timestamp;
    uint32_t interval_end_timestamp;
    uint32_t interval_bytes_sent;
    uint64_t cumulative_packets_sent;
    uint64_t cumulative_bytes_sent;
};

/* Whether a payload, what follows the type byte, is long enough for a report; 7 beside the needed and the given length. */
uint8_t siwolkert_check_sender_payload(const uint8_t *payload, size_t len, uint64_t *needed, uint64_t *given);
uint8_t siwolkert_check_receiver_payload(const uint8_t *payload, size_t len, uint64_t *needed, uint64_t *given);

/* Scaled jitter and a transit difference in µs: the scaled jitter after it. 1 */
uint8_t siwolkert_jitter_update(int64_t jitter_q4, int32_t transit_delta, int64_t *updated);

/* The expected transmission count of two delivery ratios. 11 */
uint8_t siwolkert_compute_etx(double d_forward, double d_reverse, double *etx);

/* Whether the record keeps its rule. 1 */
uint8_t siwolkert_sender_check(const struct siwolkert_sender_state *state);

/* A frame is sent. 1, 3, 10 */
uint8_t siwolkert_sender_record_sent(struct siwolkert_sender_state *state, uint64_t counter, uint32_t timestamp, size_t bytes);

/* A report of the interval. *some is false, and the report zeros, where no frame was sent since the last one. 1, 2 */
uint8_t siwolkert_sender_build_report(struct siwolkert_sender_state *state, uint64_t now_ms, bool *some, struct siwolkert_sender_report *report);

#ifdef __cplusplus
}
#endif

#endif
