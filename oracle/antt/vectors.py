"""Rows from the stored vectors of crates/replay/data; oracle/README.md, "Stored vectors", says how a record is laid out."""
import os
import struct

LONGEST = 40  # a longer list costs the checker more than it shows
LONGEST_JOB = 400
WIDEST = 40  # a longer range is not scored start by start


def records(path):
    data = open(path, "rb").read()
    words = struct.unpack("<%dQ" % (len(data) // 8), data)
    at, found = 4, []
    while at < len(words):
        found.append(list(words[at + 1 : at + words[at]]))
        at += words[at]
    assert len(found) == words[2], path
    return found


class Walk:
    """Takes words off a record's front."""

    def __init__(self, words):
        self.words = words

    def take(self, n):
        taken, self.words = self.words[:n], self.words[n:]
        return taken


def lst(entries):
    return "(" + "".join("%s ∷ " % e for e in entries) + "[])"


def floats(entries):
    return lst("of_bits binary64 %d" % e for e in entries)


def refused(number, place):
    return "(record { number = %d; place = %d; values = []; estimate = [] })" % (number, place)


def done(values, estimate=()):
    return "told_done %s %s" % (lst(values), floats(estimate))


def script(record):
    w = Walk(record)
    sizes = w.take(4)
    counts, words, summary, pivots, shareds = w.take(5)
    number, place, last_pivot, last_shared = w.take(4)
    query, coords, indexes, kinds = (w.take(n) for n in sizes)
    if max(sizes) > LONGEST:
        return
    s = "(record { query = %s; coords = %s; indexes = %s; kinds = %s })" % tuple(map(lst, (query, coords, indexes, kinds)))
    room = "(record { counts = %d; words = %d; summary = %d; pivots = %d; shareds = %d })" % (counts, words, summary, pivots, shareds)
    yield "scriptcall", f"told_script (script_call {s} {room})", refused(number, place) if number else done([last_pivot, last_shared])
    if not number:
        steps = len(indexes)
        looks = [x for pair in zip(w.take(steps), w.take(steps)) for x in pair]
        yield "script", f"told_looks (looks {s})", lst(looks)
        yield "moves", f"told_looks (looks_by_moves {s})", lst(looks)


def sweep(mode, record):
    w = Walk(record)
    kmer, window, length, start, end, minimum = w.take(6)
    sizes = w.take(6)
    hashes_room, counts, coords, words, summary, keys = w.take(6)
    number, place, placed = w.take(3)
    values, estimate, stats = w.take(4), w.take(2), w.take(3)
    query, hashes, starts, ends, identities, uppers = (w.take(n) for n in sizes)
    if max(sizes) > LONGEST:
        return
    s = (
        "(record { query = %s; hashes = %s; starts = %s; ends = %s; settings = record { kmer = %d; length = %d }; window = %d; "
        "range = record { start = %d; end = %d }; identities = %s; uppers = %s; minimum = of_bits binary64 %d })"
        % (lst(query), lst(hashes), lst(starts), lst(ends), kmer, length, window, start, end, floats(identities), floats(uppers), minimum)
    )
    room = "(record { hashes = %d; counts = %d; coords = %d; words = %d; summary = %d })" % (hashes_room, counts, coords, words, summary)
    room += " %d" % keys if mode == "interval" else ""
    answer = done(values + stats, estimate) if placed else done(stats)
    yield mode + "call", f"told_sweep ({mode}_call {s} {room})", refused(number, place) if number else answer
    if not number and inside(mode, kmer, window, length, start, end, query, starts, ends) and max(end - start, 0) < WIDEST:
        yield mode + "scoring", f"told_sweep ({mode}_by_scoring {s})", answer


def inside(mode, kmer, window, length, start, end, query, starts, ends):
    """Demand 3's premises, in the paper's words: of all items, not only the local or taken ones."""
    if mode == "minimizer":
        return length - (window - 1) - (kmer - 1) >= 1 and query and all(a < b for a, b in zip(starts, starts[1:]))
    return length >= kmer and query and start <= end and all(a < b for a, b in zip(starts, ends))


def finder(mode, record):
    w = Walk(record)
    minimum, length, threshold = w.take(3)
    sizes = w.take(4)
    keys, end_keys, contigs_room, starts_room, ends_room = w.take(5)
    number, place, count, seeds = w.take(4)
    groups, contigs, starts, ends = (w.take(n) for n in sizes)
    if max(sizes) > LONGEST:
        return
    f = "(record { contigs = %s; starts = %s; ends = %s; groups = %s; threshold = %d; minimum = %d; length = %d })" % (
        lst(contigs), lst(starts), lst(ends), lst(groups), threshold, minimum, length)
    room = "(record { keys = %d; contigs = %d; starts = %d; ends = %d })" % (keys, contigs_room, starts_room, ends_room)
    room += " %d" % end_keys if mode == "interval" else ""
    yield mode + "findercall", f"told_finder ({mode}_finder_call {f} {room})", refused(number, place) if number else done([count, seeds])
    if not number:
        found = [x for three in zip(w.take(count), w.take(count), w.take(count)) for x in three]
        yield mode + "found", f"told_candidates ({mode}_found {f})", lst(found)


def job(record):
    size, lines, failed = record[:3]
    if size > LONGEST_JOB:
        return
    words = (size + 7) // 8
    raw = b"".join(w.to_bytes(8, "little") for w in record[3:])
    job, text = raw[:size], raw[words * 8 : words * 8 + lines].decode()
    yield "job", "said %s %s" % ("true" if failed else "false", lst(job)), 'text "%s"' % text.replace("\n", "\\n")


FILES = {
    "script.bin": script,
    "minimizer.bin": lambda r: sweep("minimizer", r),
    "interval.bin": lambda r: sweep("interval", r),
    "minimizer_finder.bin": lambda r: finder("minimizer", r),
    "interval_finder.bin": lambda r: finder("interval", r),
    "jobs.bin": job,
}


def rows(folder, most):
    """At most so many rows of each kind, spread over its file."""
    for name, read in FILES.items():
        kinds = {}
        for number, record in enumerate(records(os.path.join(folder, name))):
            for kind, given, wanted in read(record):
                kinds.setdefault(kind, []).append((f"{kind}{number}", given, wanted))
        for found in kinds.values():
            step = max(1, len(found) // most)
            yield from found[::step][:most]
