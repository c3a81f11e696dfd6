"""Inputs for a function: values of its parameters' types, most of them lawful, near the bounds that the rules name."""
import random, struct

KINDS = {"u8": 8, "u16": 16, "u32": 32, "u64": 64, "usize": 64}
SIGNED = {"i32": 32, "i64": 64}

COUNTS = [0, 1, 2, 3, 4, 5, 6, 7, 8, 9, 15, 16, 17, 100, 255, 256, 1000, 65535, 65536, 65537, 2**31 - 1, 2**31, 2**32 - 2, 2**32 - 1, 2**32, 2**42, 2**53 + 1, 2**63 - 1, 2**63, 2**64 - 2, 2**64 - 1]
CLOCKS = [0, 1, 2, 5, 100, 199, 200, 201, 999, 1000, 1001, 5000, 5001, 10000, 24999, 25000, 65535, 65536, 2**30 - 1, 2**30, 2**42 - 1, 2**42, 2**48 - 1]
LATE = [2**48, 2**48 + 14999, 2**48 + 15000, 2**63, 2**64 - 1]
PLACES = [0, 1, 2, 3, 4, 5, 7, 8, 9, 16, 31, 32, 33, 47, 48, 66, 67, 68, 80]
FAR = [255, 256, 257, 258, 299, 300, 2**32 - 1, 2**32, 2**64 - 1]
SIGNS = [0, 1, -1, 2, 7, 8, 9, 15, 16, 17, -16, 999, 1000, 1500, 3000, 8000, -1000, 2**31 - 1, -(2**31), 2**35 - 1, 2**35, 2**35 + 1, 2**42 - 1, 2**42, 2**42 + 1, -(2**42), -(2**42) - 1, 2**63 - 1, -(2**63)]
FLOATS = [0.0, -0.0, 0.25, 0.5, 0.75, 1.0, 1.5, 2.0, 3.0, 4.0, 99.0, 100.0, 100.5, 1000.0, 1e-10, 1e6, 2.0**31, 2.0**32, 2.0**33, 2.0**64, 2.0**74]
ODD = [-1.0, -(2.0**31), 2.0**34, 2.0**65, 2.0**75, float("nan"), float("inf"), float("-inf")]

# what the state rule allows in a field, and what it does not
FIELDS = {
    "jitter_q4": ([0, 1, 15, 16, 17, 160, 2**34, 2**35], [-1, 2**35 + 1]),
    "srtt_us": ([0, 1, 7, 8, 9, 1000, 3000, 4000, 2**41, 2**42], [-1, 2**42 + 1]),
    "rttvar_us": ([0, 1, 3, 4, 5, 1500, 2**41, 2**42], [-1, 2**42 + 1]),
    "short": ([0.0, 0.5, 1.0, 3.0, 1000.0, 2.0**64], [-1.0, 2.0**65, float("nan")]),
    "long": ([0.0, 0.25, 1.0, 2.0, 500.0, 2.0**64], [-1.0, 2.0**65, float("nan")]),
    "delivery_ratio_forward": ([0.0, 0.25, 0.5, 1.0], [-0.5, 1.5, float("nan")]),
    "delivery_ratio_reverse": ([0.0, 0.25, 0.5, 1.0], [-0.5, 1.5, float("nan")]),
    "etx": ([1.0, 2.0, 4.0, 100.0], [0.5, 101.0, float("nan")]),
    "goodput_bps": ([0.0, 1.0, 1000.0, 2.0**74], [-1.0, 2.0**75, float("nan")]),
}


def bare(kind):
    """A type without `&` and `&mut`."""
    return kind.removeprefix("&").removeprefix("mut ")


def slice_in(kind):
    """Of what a lent buffer is, or nothing."""
    return bare(kind)[1:-1] if kind.startswith("&") and bare(kind).startswith("[") and ";" not in kind else None


class Inputs:
    def __init__(self, sources, seed):
        self.sources, self.rng = sources, random.Random(seed)

    def pick(self, plain, odd, mode):
        """Plain values; in a wild case odd ones too. The first of a list are the simplest, and come more often."""
        rng = self.rng
        if mode == 0:
            return plain[rng.randrange(min(2, len(plain)))]
        if odd and rng.random() < (0, 0, 0.12, 0.4)[mode]:
            return rng.choice(odd)
        return plain[rng.randrange(min(8, len(plain)))] if rng.random() < 0.5 else rng.choice(plain)

    def number(self, kind, name, mode):
        if name in FIELDS and (kind == "f64") == isinstance(FIELDS[name][0][0], float):
            return self.pick(*FIELDS[name], mode)
        if kind == "bool":
            return self.rng.random() < 0.5
        if kind == "f64":
            return self.pick(FLOATS, ODD, mode)
        if kind in SIGNED:
            top = 2 ** (SIGNED[kind] - 1)
            return self.pick([n for n in SIGNS if -top <= n < top], [], mode)
        top = 2 ** KINDS[kind]
        if kind == "usize":
            return self.pick(PLACES, FAR, mode)
        if kind == "u64" and ("ms" in name.split("_") or name == "now"):
            return self.pick(CLOCKS, LATE, mode)
        return self.pick([n for n in COUNTS if n < top], [], mode)

    def of(self, kind, name, mode, capacity):
        """A value of a whole type: a number, a list, a dict of fields, or a variant with its fields."""
        if kind in KINDS or kind in SIGNED or kind in ("f64", "bool"):
            return self.number(kind, name, mode)
        if inner := slice_in(kind):
            length = self.rng.choice([0, 1, 2, 4, 8, 9, 46, 47, 48, 49, 66, 67, 68, 69, 80]) if inner == "u8" else capacity if self.rng.random() < (1, 0.97, 0.9, 0.5)[mode] else self.rng.randrange(9)
            return self.bytes(length) if inner == "u8" else [self.element(inner, mode) for _ in range(length)]
        kind = bare(kind)
        if kind in KINDS or kind in SIGNED or kind in ("f64", "bool"):
            return self.number(kind, name, mode)
        if kind.startswith("["):
            return self.bytes(int(kind[1:-1].split("; ")[1]))
        declared, fields, variants = self.sources.declared(kind)
        if variants:
            variant, fields, _ = self.rng.choice(variants)
            return (variant, [self.of(k, name if n.isdigit() else n, mode, capacity) for n, k in fields])
        value = {n: self.of(k, n, mode, capacity) for n, k in fields}
        if mode < 3 and self.rng.random() < (1, 1, 0.8)[mode]:
            mend(declared.name, value, capacity)
        return value

    def bytes(self, length):
        """A payload: in most cases one that is written in a few words."""
        way = self.rng.randrange(5)
        if way == 4:
            return [self.rng.randrange(256) for _ in range(length)]
        return [(0, 1, 255, i + 1)[way] for i in range(length)]

    def element(self, kind, mode):
        if kind == "i64":
            return self.pick([0, 1, -1, 1000, 2000, -1000, 5000, 10**6, 2**41, 2**42, -(2**42)], [2**42 + 1, -(2**42) - 1, 2**63 - 1], mode)
        return self.number(kind, "", mode)

    def case(self, params):
        """The arguments of one call."""
        mode = self.rng.choice([0, 1, 1, 1, 2, 2, 3])
        capacity = self.rng.choice([2, 2, 3, 4, 8])
        values = [self.of(kind, name, mode, capacity) for name, kind in params]
        # two numbers that meet at the end of their width
        kinds = [kind for _, kind in params]
        for i in range(len(kinds) - 1):
            if kinds[i] == kinds[i + 1] and kinds[i] in KINDS and self.rng.random() < 0.1:
                values[i + 1] = max(0, 2 ** KINDS[kinds[i]] - 1 - values[i] + self.rng.choice([-1, 0]))
        return values


def mend(name, value, capacity):
    """Clauses of the state rule that tie fields to each other."""
    if name == "OwdTrendDetector":
        value["capacity"] = capacity
        value["count"] = min(value["count"], capacity)
        value["first"] = min(value["first"], capacity - 1)
    if name == "GapTracker":
        if value["in_burst"]:
            value["burst_count"] = max(value["burst_count"], 1)
        else:
            value["current_burst_len"] = 0
        value["total_burst_len"] = min(value["total_burst_len"], 65535 * (value["burst_count"] - value["in_burst"]))
    if name == "ReceiverState":
        value["cumulative_reorder_count"] = min(value["cumulative_reorder_count"], value["cumulative_packets_recv"])
    if name == "MmpMetrics":
        kinds = [n for n in value if n in ("stale_reports", "no_echo_reports", "rtt_samples", "rtt_zero", "rtt_arith_fail")]
        for n in kinds:
            value[n] = min(value[n], 9)
        # the kinds add up to the reports seen: what is left of them goes to one
        seen = value["reports_seen"] = max(value["reports_seen"], sum(value[n] for n in kinds))
        value[kinds[seen % len(kinds)]] += seen - sum(value[n] for n in kinds)


def pattern(x):
    """The 64-bit pattern of a float, one for every NaN."""
    return struct.unpack("<Q", struct.pack("<d", x))[0] if x == x else 0x7FF8000000000000


def shown(value):
    """A value as a reader writes it; fields that are 0, no or none are left out."""
    if isinstance(value, bool):
        return "yes" if value else "no"
    if isinstance(value, float):
        return repr(value)
    if isinstance(value, int):
        for power in (30, 31, 32, 33, 34, 35, 41, 42, 48, 53, 63, 64):
            for off in (0, -2, -1, 1, 14999, 15000):
                if abs(value) == 2**power + off:
                    return ("−" if value < 0 else "") + f"2^{power}" + (f" + {off}" if off > 0 else f" − {-off}" if off else "")
        return str(value).replace("-", "−")
    if isinstance(value, tuple):
        return value[0] + (f"({', '.join(shown(v) for v in value[1])})" if value[1] else "")
    if isinstance(value, dict) and "0" in value:
        return "(" + ", ".join(shown(v) for v in value.values()) + ")"
    if isinstance(value, list):
        if len(value) > 4 and all(b == a + 1 for a, b in zip(value, value[1:])):
            return f"[{value[0]} .. {value[-1]}]"
        items = [shown(v) for v in value]
        end = len(items)
        while end > 1 and items[end - 1] == items[end - 2]:
            end -= 1
        return "[" + ", ".join(items[:end]) + (f" × {len(items) - end + 1}" if end < len(items) else "") + "]"
    kept = [f"{n} {shown(v)}" for n, v in value.items() if not plain(v)]
    return "{" + ", ".join(kept) + "}"


def plain(value):
    """0, no or none, in every field."""
    if isinstance(value, dict):
        return all(plain(v) for v in value.values())
    if isinstance(value, tuple):
        return value[0] in ("None",)
    return not isinstance(value, list) and value == 0 and not (isinstance(value, float) and str(value) == "-0.0")
