"""The routines on flat arrays with numpy and OpenCV, timed, for the benchmark report.

Takes a request a line, with tabs between its words, and answers each with a line:
    version LIBRARY            its version, or `none`
    scene FOLDER HEIGHT WIDTH  takes the arrays of a further scene from the files there
    use NUMBER                 makes calls on the arrays of that scene from here on, counted from 0
    has LIBRARY CALL           `yes`, or `none` where the library lacks the call
    digest LIBRARY CALL        a number that the call's result determines, or `none` where the library lacks it
    time LIBRARY CALL REPEATS  nanoseconds of that many calls, after one that is not timed
    end
Results go to arrays made beforehand wherever a function can do so. One thread.
"""

import sys
import time

try:
    import numpy as np
except ImportError:
    np = None
try:
    import cv2
except ImportError:
    cv2 = None


# Edits of a list of edits.
EDITS = 1000
# Kinds of masks.
KINDS = ("half set", "1 % scattered", "1 % in a disc")


class Scene:
    """The arrays of a scene, flat for numpy and with rows for OpenCV."""

    def __init__(self, folder, height, width):
        def load(name):
            return np.fromfile(f"{folder}/{name}", dtype=np.uint64)

        n = height * width
        self.n = n
        self.a, self.b, self.small = (load(name).astype(np.uint32) for name in ("a", "b", "small"))
        self.primary = load("primary").astype(np.uint8)
        self.slots = load("slots").astype(np.intp)
        self.distances = load("distances").astype(np.uint32)
        self.asked = load("asked").astype(np.intp)
        self.inline, self.overflow = (int(slot) for slot in load("places"))
        self.mask, self.other_mask = load("mask"), load("other_mask")
        self.masks = {kind: load(kind) for kind in KINDS}
        self.out, self.out2 = np.zeros(n, np.uint32), np.zeros(n, np.uint32)
        self.signed = np.zeros(n, np.int64)
        self.words = np.zeros(n // 64, np.uint64)
        self.counts = np.zeros(n // 16, np.uint8)
        self.asked_out = np.zeros(len(self.asked), np.uint32)
        self.flags, self.flags2, self.flags3 = (np.zeros(n, bool) for _ in range(3))
        self.edited = self.a.copy()
        self.shape = (height, width)


def packed(flags):
    """The words of an array of truth values."""
    return np.packbits(flags, bitorder="little").view(np.uint64)


def spread(mask):
    """The bits of a mask, a byte each."""
    return np.unpackbits(mask.view(np.uint8), bitorder="little")


def with_numpy(s):
    """The calls with numpy, by name."""
    a, b, out, out2 = s.a, s.b, s.out, s.out2
    bit_counts = np.array([bin(x).count("1") for x in range(1 << 16)], np.uint8)

    def close():
        np.copyto(out, s.primary)
        out[s.slots] = s.distances
        return out

    def difference(x, y):
        np.maximum(x, y, out=out)
        return np.subtract(out, y, out=out)

    # Zero distances stay; others become no less than 1.
    def shift_down(size):
        difference(a, size)
        np.minimum(a, np.uint32(1), out=out2)
        return np.maximum(out, out2, out=out)

    def shift_up(size):
        np.minimum(a, np.uint32(1), out=out)
        np.multiply(out, size, out=out)
        return np.add(out, a, out=out)

    def masked(test, t):
        return packed(test(a, t, out=s.flags))

    # From 1 to t: 0 less 1 is above any other.
    def near_mask(t):
        np.subtract(a, np.uint32(1), out=out)
        return packed(np.less(out, t, out=s.flags))

    def set_bits():
        if hasattr(np, "bitwise_count"):
            return int(np.bitwise_count(s.mask).sum())
        return int(np.take(bit_counts, s.mask.view(np.uint16), out=s.counts).sum())

    def map_of_mask(mask):
        np.copyto(out, spread(mask))
        return out

    def bray_curtis():
        np.maximum(a, b, out=out)
        np.minimum(a, b, out=out2)
        np.subtract(out, out2, out=out)
        return total(out) / (total(a) + total(b))

    def total(x):
        return int(x.sum(dtype=np.uint64))

    def jaccard(t):
        np.greater_equal(a, t, out=s.flags)
        np.greater_equal(b, t, out=s.flags2)
        np.not_equal(s.flags, s.flags2, out=s.flags3)
        np.logical_or(s.flags, s.flags2, out=s.flags)
        either = np.count_nonzero(s.flags)
        return np.count_nonzero(s.flags3) / either if either else 0.0

    calls = {
        "scan": lambda: copied(out, a),
        "sum": lambda: total(a),
        "readings": lambda: int(np.count_nonzero(a)),
        "lookup": lambda: int(a[s.asked[0]]),
        "lookup_list of 16,000": lambda: np.take(a, s.asked, out=s.asked_out, mode="clip"),
        "write": lambda: copied(out, a),
        "close": close,
        "close_entries": close,
        "minimum": lambda: np.minimum(a, b, out=out),
        "maximum": lambda: np.maximum(a, b, out=out),
        "sum_maps, few to overflow": lambda: np.add(a, s.small, out=out),
        "sum_maps, half to overflow": lambda: np.add(a, b, out=out),
        "difference": lambda: difference(a, b),
        "shift by -50": lambda: shift_down(np.uint32(50)),
        "shift by 10": lambda: shift_up(np.uint32(10)),
        "signed_difference": lambda: np.subtract(b, a, out=s.signed, dtype=np.int64),
        "mask_and": lambda: np.bitwise_and(s.mask, s.other_mask, out=s.words),
        "mask_or": lambda: np.bitwise_or(s.mask, s.other_mask, out=s.words),
        "mask_xor": lambda: np.bitwise_xor(s.mask, s.other_mask, out=s.words),
        "mask_not": lambda: np.bitwise_not(s.mask, out=s.words),
        "set_bits": set_bits,
        "bray_curtis": bray_curtis,
    }
    for kind, words_of_kind in s.masks.items():
        calls[f"map_of_mask, {kind}"] = lambda m=words_of_kind: map_of_mask(m)
        calls[f"keep_masked, {kind}"] = lambda m=words_of_kind: np.multiply(a, spread(m), out=out)
        calls[f"increment_masked, {kind}"] = lambda m=words_of_kind: np.add(a, spread(m), out=out)
    for t in (200, 300):
        limit = np.uint32(t)
        calls[f"mask_below {t}"] = lambda t=limit: masked(np.less, t)
        calls[f"mask_at_most {t}"] = lambda t=limit: masked(np.less_equal, t)
        calls[f"mask_above {t}"] = lambda t=limit: masked(np.greater, t)
        calls[f"mask_at_least {t}"] = lambda t=limit: masked(np.greater_equal, t)
        calls[f"near_mask {t}"] = lambda t=limit: near_mask(t)
        calls[f"jaccard at {t}"] = lambda t=limit: jaccard(t)
    edited = s.edited
    # One edit and a list of edits, to one distance and to another in turns.
    for name, slot, many, values in (
        ("inline", s.inline, np.full(EDITS, s.inline), (7, 9)),
        ("in overflow", s.overflow, s.asked[:EDITS], (700, 900)),
        ("into and out", s.inline, np.full(EDITS, s.inline), (7, 900)),
    ):
        distances = np.resize(np.array(values, np.uint32), EDITS)
        calls[f"edit, {name}"] = lambda slot=slot, v=values[0]: edited.__setitem__(slot, v)
        calls[f"edit_list, 1,000 {name}"] = lambda m=many, d=distances: edited.__setitem__(m, d)
    return calls


def copied(out, array):
    np.copyto(out, array)
    return out


def with_opencv(s):
    """The calls with OpenCV, by name.

    It has no unsigned numbers of 32 bits, and its masks have a byte, 0 or 255, for each slot.
    """
    cv2.setNumThreads(1)

    def rows(x):
        return x.view(np.int32).reshape(s.shape)

    a, b, small, out, out2 = rows(s.a), rows(s.b), rows(s.small), rows(s.out), rows(s.out2)
    signed = np.zeros(s.shape, np.float64)
    flags, flags2, flags3 = (np.zeros(s.shape, np.uint8) for _ in range(3))
    mask, other, words = (x.view(np.uint8).reshape(1, -1) for x in (s.mask, s.other_mask, s.words))

    def difference(y):
        cv2.max(a, y, out)
        return cv2.subtract(out, y, out)

    # Zero distances stay; others become no less than 1.
    def shift_down(size):
        difference(size)
        cv2.min(a, 1.0, out2)
        return cv2.max(out, out2, out)

    def shift_up(size):
        cv2.compare(a, 0.0, cv2.CMP_NE, flags)
        out.fill(0)
        return cv2.add(a, size, out, flags)

    def compared(t, comparison):
        return Flags(cv2.compare(a, t, comparison, flags))

    def keep_masked(chosen):
        out.fill(0)
        return cv2.copyTo(a, chosen, out)

    def increment_masked(chosen):
        np.copyto(out, a)
        return cv2.add(out, 1.0, out, chosen)

    def total(x):
        return cv2.sumElems(x)[0]

    def jaccard(t):
        cv2.compare(a, t, cv2.CMP_GE, flags)
        cv2.compare(b, t, cv2.CMP_GE, flags2)
        cv2.bitwise_xor(flags, flags2, flags3)
        cv2.bitwise_or(flags, flags2, flags)
        either = cv2.countNonZero(flags)
        return cv2.countNonZero(flags3) / either if either else 0.0

    calls = {
        "sum": lambda: int(total(a)),
        "readings": lambda: cv2.countNonZero(a),
        "minimum": lambda: cv2.min(a, b, out),
        "maximum": lambda: cv2.max(a, b, out),
        "sum_maps, few to overflow": lambda: cv2.add(a, small, out),
        "sum_maps, half to overflow": lambda: cv2.add(a, b, out),
        "difference": lambda: difference(b),
        "shift by -50": lambda: shift_down(50.0),
        "shift by 10": lambda: shift_up(10.0),
        "signed_difference": lambda: cv2.subtract(b, a, signed, dtype=cv2.CV_64F),
        "mask_and": lambda: cv2.bitwise_and(mask, other, words),
        "mask_or": lambda: cv2.bitwise_or(mask, other, words),
        "mask_xor": lambda: cv2.bitwise_xor(mask, other, words),
        "mask_not": lambda: cv2.bitwise_not(mask, words),
        "set_bits": lambda: int(cv2.norm(mask, cv2.NORM_HAMMING)),
        "bray_curtis": lambda: cv2.norm(a, b, cv2.NORM_L1) / (total(a) + total(b)),
    }
    for t in (200, 300):
        limit = float(t)
        calls[f"mask_below {t}"] = lambda t=limit: compared(t, cv2.CMP_LT)
        calls[f"mask_at_most {t}"] = lambda t=limit: compared(t, cv2.CMP_LE)
        calls[f"mask_above {t}"] = lambda t=limit: compared(t, cv2.CMP_GT)
        calls[f"mask_at_least {t}"] = lambda t=limit: compared(t, cv2.CMP_GE)
        calls[f"near_mask {t}"] = lambda t=limit: Flags(cv2.inRange(a, 1.0, t, flags))
        calls[f"jaccard at {t}"] = lambda t=limit: jaccard(t)
    for kind, words_of_kind in s.masks.items():
        chosen = (spread(words_of_kind) * 255).reshape(s.shape)
        calls[f"keep_masked, {kind}"] = lambda c=chosen: keep_masked(c)
        calls[f"increment_masked, {kind}"] = lambda c=chosen: increment_masked(c)
    return calls


class Flags:
    """A mask as OpenCV has it."""

    def __init__(self, flags):
        self.flags = flags


def digest(result):
    """The number that `Flat::digest` of the bench has for the same result."""
    if isinstance(result, int):
        return result
    if isinstance(result, float):
        return int(np.float64(result).view(np.uint64))
    if isinstance(result, Flags):
        result = packed(result.flags.ravel() != 0)
    if result is None:
        return 0
    if result.dtype == np.float64:
        result = result.astype(np.int64)
    if result.dtype == np.uint8:
        result = result.view(np.uint64)
    numbers = result.ravel().astype(np.uint64)
    places = np.arange(1, len(numbers) + 1, dtype=np.uint64)
    return int((numbers * places).sum(dtype=np.uint64))


def timed(call, repeats):
    call()
    start = time.perf_counter_ns()
    for _ in range(repeats):
        call()
    return time.perf_counter_ns() - start


def answer(scenes, used, request):
    """The answer to a request; `used` holds the number of the scene that calls are made on."""
    kind, *words = request
    if kind == "version":
        library = {"numpy": np, "opencv": np and cv2}[words[0]]
        return library.__version__ if library else "none"
    if kind == "scene":
        folder, height, width = words
        scene = Scene(folder, int(height), int(width))
        opencv = with_opencv(scene) if cv2 else {}
        scenes.append({"numpy": with_numpy(scene), "opencv": opencv})
        return len(scenes) - 1
    if kind == "use":
        used[0] = int(words[0])
        return "ok"
    library, name = words[:2]
    call = scenes[used[0]][library].get(name)
    if kind == "has":
        return "yes" if call else "none"
    if kind == "digest":
        return digest(call()) if call else "none"
    return timed(call, int(words[2]))


def main():
    scenes, used = [], [0]
    for line in sys.stdin:
        request = line.rstrip("\n").split("\t")
        if request == ["end"]:
            return
        print(answer(scenes, used, request), flush=True)


main()
