#!/usr/bin/env python3
"""What the program `bench` must print for the cases of its file `stdin`, worked out by docs/RULES.md alone: it shares the cases with the
program and nothing else. (`wake_verdicts.py` prints the text of an array of the code by `in_range`; the prover holds that array to the
definition.) `bench_expected.py bench > crates/bench/stdout` writes the page anew."""
import collections
import itertools
import pathlib
import sys

ABSENT = 255
MOVE, ARM, DISARM, SLEEP = 1, 2, 3, 4
BRING_UP = None  # in the place of a request

# ---- RULES.md 2.2, 2.7 and 2.10: by the version, how many bytes a set, a device record and a state have, how many resources and devices a
# table may have, and how many words a plan must have, for sleep entry and else
Sizes = collections.namedtuple("Sizes", "set device state limit list sleep")
SIZES = {1: Sizes(4, 40, 132, 32, 33, 1056), 2: Sizes(8, 64, 264, 64, 65, 4160)}


def le(b):
    return int.from_bytes(b, "little")


# ---- RULES.md 3.3, whether state d is in the wake range of an _SxD and an _SxW
def in_range(sxd, sxw, d):
    if sxd == ABSENT and sxw == ABSENT:
        return False
    if sxw == ABSENT:
        return d == sxd
    if sxd == ABSENT:
        return d <= sxw
    return sxd <= d <= sxw


# whether every resource of a set has systemlevel s or more
def powered_in(s, resources, levels):
    return not any(resources >> r & 1 and level < s for r, level in enumerate(levels))


# a device by the bytes of its record; sets have w bytes, in a table by its version, in a description 8
class Device:
    def __init__(self, b, w):
        self.parent, self.ps, self.pr, self.flags = b[0], b[1], b[2], b[3]
        self.sets = [le(b[4 + w * k:4 + w * (k + 1)]) for k in range(5)]  # _PR0 to _PR3, _PRW
        rest = b[4 + 5 * w:]
        self.sxd = {x: rest[x - 1] for x in range(1, 5)}
        self.sxw = {x: rest[4 + x] for x in range(5)}
        self.deepest = rest[9]
        self.zeros = rest[10:]
        self.prw, self.dsw = bool(self.flags & 1), bool(self.flags & 2)

    # its fields as bytes, without the zeros
    def fields(self, w):
        sets = b"".join(s.to_bytes(w, "little") for s in self.sets)
        return bytes([self.parent, self.ps, self.pr, self.flags]) + sets + bytes([*self.sxd.values(), *self.sxw.values(), self.deepest])

    # ---- RULES.md 2.4, device record
    def fields_good(self, number, R):
        if not (self.parent == ABSENT or self.parent < number):
            return False
        if self.ps >= 16 or self.pr >= 16 or self.flags >= 4:
            return False
        for k in range(5):
            present = self.prw if k == 4 else bool(self.pr >> k & 1)
            if self.sets[k] >> R or (self.sets[k] and not present):
                return False
        if any(v > 3 and v != ABSENT for v in self.sxd.values()):
            return False
        if any(v > 4 and v != ABSENT for v in self.sxw.values()):
            return False
        for x in range(1, 5):
            if self.sxd[x] != ABSENT and self.sxw[x] != ABSENT and self.sxd[x] > self.sxw[x]:
                return False
        if self.deepest > 4 or (self.deepest and not self.prw):
            return False
        return not any(self.zeros)

    # ---- RULES.md 2.5, object rules
    def objects_good(self):
        if self.ps and not (self.ps & 1 and self.ps & 8):
            return False
        if self.pr and not self.pr & 1:
            return False
        if self.ps and self.pr and self.ps % 8 != self.pr % 8:
            return False
        return not (self.dsw and not self.prw)

    # ---- RULES.md 3.1 to 3.4
    def supported(self, x):
        if x in (0, 3):
            return True
        if x in (1, 2):
            return bool((self.ps | self.pr) >> x & 1)
        return x == 4 and bool(self.pr & 8)

    def state_needs(self, x):
        if x == 4:
            return 0
        if x < 3:
            return self.sets[x]
        for k in (3, 2, 1, 0):
            if self.pr >> k & 1:
                return self.sets[k]
        return 0

    # ---- RULES.md 3.5
    def needs(self, x, armed):
        return self.state_needs(x) | (self.sets[4] if armed else 0)

    # for S0 there is no _SxD
    def may_wake(self, s, d):
        return in_range(self.sxd[s] if s else ABSENT, self.sxw[s], d)

    def pair_legal(self, s, d, levels):
        if not self.prw or s > self.deepest:
            return False
        return powered_in(s, self.sets[4], levels) and self.supported(d) and self.may_wake(s, d)


# of a table whose version is one that there is
def sizes(t):
    return SIZES[le(t[4:6])]


def table_size(size, R, D):
    return 8 + 4 * R + size.device * D


def record_at(t, d):
    at = table_size(sizes(t), t[3], d)
    return t[at:at + sizes(t).device]


def split(t):
    resources = [t[8 + 4 * r:12 + 4 * r] for r in range(t[3])]
    devices = [Device(record_at(t, d), sizes(t).set) for d in range(t[6])]
    return resources, devices


# answers 4 to 6 of resources, each its bytes, and devices, of which one that is cut short is none
def check_records(resources, devices):
    for r, b in enumerate(resources):
        if len(b) < 4 or b[0] > 4 or b[1]:
            return 4, r
    for d, device in enumerate(devices):
        if device is None or not device.fields_good(d, len(resources)):
            return 5, d
        if not device.objects_good():
            return 6, d
    return 0, 0


# ---- RULES.md 2.6, answers 1 to 6
def check_table(t):
    if len(t) < 8 or t[:3] != b"PWT" or le(t[4:6]) not in SIZES or t[7] != 0:
        return 1, 0
    R, D = t[3], t[6]
    if max(R, D) > sizes(t).limit:
        return 2, 0
    if len(t) != table_size(sizes(t), R, D):
        return 3, 0
    return check_records(*split(t))


# the on-set of a state, past the entries, of which there are as many as the version allows
def on_set(t, image):
    return le(image[4 * sizes(t).limit:])


def with_on_set(t, image, on):
    return bytes(image[:4 * sizes(t).limit]) + on.to_bytes(sizes(t).set, "little")


# ---- RULES.md 4.2 and 4.3, answers 7 and 8 of a table that is accepted; powered: whether what a device needs must be on
def check_state(t, image, powered):
    resources, devices = split(t)
    if len(image) != sizes(t).state:
        return 7, 0
    for k in range(sizes(t).limit):
        state, armed, s, d = image[4 * k:4 * k + 4]
        if state > 4 or armed > 1 or s > 4 or d > 4:
            return 7, 0
        if not armed and (s or d):
            return 7, 0
        if k >= len(devices) and (state or armed or s or d):
            return 7, 0
    on = on_set(t, image)
    if on >> len(resources):
        return 7, 0
    levels = [b[0] for b in resources]
    for k, device in enumerate(devices):
        state, armed, s, d = image[4 * k:4 * k + 4]
        good = device.supported(state)
        good = good and (device.parent == ABSENT or state >= image[4 * device.parent])
        good = good and (not armed or (device.pair_legal(s, d, levels) and state <= d))
        if not good or (powered and device.needs(state, armed) & ~on):
            return 8, k
    return 0, 0


# whether any bytes are a table and a consistent state of it, or one that bring-up makes consistent (RULES.md 12)
def check_both(t, image, powered=True):
    number, place = check_table(t)
    return (number, place) if number else check_state(t, image, powered)


def record(t, d):
    return b"" if check_table(t)[0] or d >= t[6] else record_at(t, d)


def fresh(t, buffer):
    number, place = check_table(t)
    if number:
        return number, place, buffer
    if len(buffer) != sizes(t).state:
        return 7, 0, buffer
    return 0, 0, with_on_set(t, bytes(len(buffer)), 2 ** t[3] - 1)


# ---- RULES.md 11, descriptions: 4 bytes a resource, 54 a device. The last record may be cut short
def in_records(b, size):
    return [b[at:at + size] for at in range(0, len(b), size)]


def at_front(b, buffer):
    return b + buffer[len(b):]


# number, place, count, the buffer of the table afterwards
def write(version, resources, devices, buffer):
    records, parts = in_records(resources, 4), in_records(devices, 54)
    R, D = len(records), len(parts)
    if version not in SIZES:
        return 1, 0, 0, buffer
    size = SIZES[version]
    if max(R, D) > size.limit:
        return 2, 0, 0, buffer
    if len(buffer) < table_size(size, R, D):
        return 9, 0, 0, buffer
    described = [Device(b, 8) if len(b) == 54 else None for b in parts]
    number, place = check_records(records, described)
    if number:
        return number, place, 0, buffer
    t = b"PWT" + bytes([R, version, 0, D, 0]) + resources
    t += b"".join(device.fields(size.set).ljust(size.device, b"\0") for device in described)
    return 0, 0, len(t), at_front(t, buffer)


# number, place, count, the buffers of the two lists afterwards
def describe(t, resources, devices):
    number, place = check_table(t)
    if number == 0 and (len(resources) < 4 * t[3] or len(devices) < 54 * t[6]):
        number, place = 9, 0
    if number:
        return number, place, 0, resources, devices
    records, found = split(t)
    first, second = b"".join(records), b"".join(device.fields(8) for device in found)
    return 0, 0, len(first) + len(second), at_front(first, resources), at_front(second, devices)


# ---- RULES.md 5, answers 10 to 18. A request is four numbers: kind, device, a, b
def check_request(devices, levels, image, q):
    kind, d, a, b = q
    if kind not in (MOVE, ARM, DISARM) or d >= len(devices):
        return 10, 0
    if (kind == MOVE and (a > 4 or b)) or (kind == ARM and (a > 4 or b > 4)) or (kind == DISARM and (a or b)):
        return 10, 0
    device = devices[d]
    state, armed, _, wake_d = image[4 * d:4 * d + 4]
    if kind == MOVE:
        if not device.supported(a):
            return 11, 0
        if a < state and a != 0:
            return 12, 0
        if device.parent != ABSENT and image[4 * device.parent] > a:
            return 13, device.parent
        for child, other in enumerate(devices):
            if other.parent == d and image[4 * child] < a:
                return 14, child
        if armed and a > wake_d:
            return 15, 0
    if kind == ARM:
        if not device.prw or a > device.deepest:
            return 16, 0
        if not powered_in(a, device.sets[4], levels):
            return 17, 0
        if not device.supported(b) or not device.may_wake(a, b) or b < state:
            return 18, 0
    return 0, 0


def needed(devices, image):
    union = 0
    for k, device in enumerate(devices):
        union |= device.needs(image[4 * k], image[4 * k + 1])
    return union


# ---- a request, or bring-up
def permitted(t, image, q):
    number, place = check_both(t, image, powered=q is not BRING_UP)
    if number == 0 and q is not BRING_UP:
        resources, devices = split(t)
        number, place = check_request(devices, [b[0] for b in resources], image, q)
    return number, place


def own_call(device, before, q):
    kind, d, a, b = q
    if kind == MOVE:
        x = min(a, 3)  # _PS3 for D3cold
        changes = a != before[0] and not (before[0] == 3 and a == 4)
        return [bytes([3, d, x, 0])] if changes and device.ps >> x & 1 else []
    if kind == ARM:
        return [bytes([4, d, a, 128 + b])] if device.dsw else []
    return [bytes([4, d, 0, 0])] if device.dsw and before[1] else []


def with_new_entry(image, q):
    kind, d, a, b = q
    after = bytearray(image)
    if kind == MOVE:
        after[4 * d] = a
    elif kind == ARM:
        after[4 * d + 1:4 * d + 4] = bytes([1, a, b])
    else:
        after[4 * d + 1:4 * d + 4] = bytes(3)
    return after


# the turn-on calls and the turn-off calls, each with the order that it must keep
def switching(resources, have, want):
    order = [le(r[2:4]) for r in resources]
    turn_on = [(order[r], r) for r in range(len(resources)) if want >> r & 1 and not have >> r & 1]
    turn_off = [(-order[r], -r) for r in range(len(resources)) if have >> r & 1 and not want >> r & 1]
    turn_on = [(key, bytes([1, r, 0, 0])) for key, r in sorted(turn_on)]
    turn_off = [(key, bytes([2, -r, 0, 0])) for key, r in sorted(turn_off)]
    return [turn_on, turn_off]


# the parts of the list of what is permitted, in their order; and the image afterwards
def parts_and_image(t, image, q):
    resources, devices = split(t)
    after = bytearray(image) if q is BRING_UP else with_new_entry(image, q)
    want = needed(devices, after)
    parts = switching(resources, on_set(t, image), want)
    if q is not BRING_UP:
        kind, d, a, _ = q
        own = [(0, call) for call in own_call(devices[d], image[4 * d:4 * d + 4], q)]
        own_first = kind == DISARM or (kind == MOVE and a > image[4 * d])
        parts = [own, *parts] if own_first else [*parts, own]
    return parts, with_on_set(t, after, want)


# ---- RULES.md 13, sleep entry for sleep state x: whether a device with this entry may take a state
def may_take(device, levels, entry, x, state):
    present, armed, _, wake_d = entry
    if not device.supported(state) or state < present or (armed and state != wake_d):
        return False
    if device.sxd[x] != ABSENT and state < device.sxd[x]:
        return False
    return powered_in(x, device.needs(state, armed), levels)


# the least choice, or None where there is none
def least_choice(t, image, x):
    resources, devices = split(t)
    levels = [b[0] for b in resources]
    chosen = []
    for d, device in enumerate(devices):
        shallowest = 0 if device.parent == ABSENT else chosen[device.parent]
        fit = [y for y in range(shallowest, 5) if may_take(device, levels, image[4 * d:4 * d + 4], x, y)]
        if not fit:
            return None
        chosen.append(fit[0])
    return chosen


# answers 10, 20 and 21
def check_sleep_entry(t, image, q):
    _, device, x, b = q
    if not 1 <= x <= 4 or device or b:
        return 10, 0
    for d in range(t[6]):
        _, armed, wake_s, _ = image[4 * d:4 * d + 4]
        if armed and wake_s != x:
            return 20, d
    return (0, 0) if least_choice(t, image, x) is not None else (21, 0)


# its moves, from the highest device on. Where none moves, bring-up gives the turn-off calls alone, since all that is needed is on
def sleep_moves(t, image, x):
    moves = [(MOVE, d, y, 0) for d, y in enumerate(least_choice(t, image, x)) if y != image[4 * d]]
    return moves[::-1] or [BRING_UP]


def is_sleep(q):
    return q is not BRING_UP and q[0] == SLEEP


# number, place, the calls, the image afterwards; room: the bytes of the plan
def plan(t, image, q, room):
    number, place = check_both(t, image, powered=q is not BRING_UP)
    if number == 0 and room < 4 * (sizes(t).sleep if is_sleep(q) else sizes(t).list):
        number, place = 9, 0
    if number == 0:
        number, place = check_sleep_entry(t, image, q) if is_sleep(q) else permitted(t, image, q)
    if number:
        return number, place, [], image
    calls = []
    for step in sleep_moves(t, image, q[2]) if is_sleep(q) else [q]:
        parts, image = parts_and_image(t, image, step)
        calls += [call for part in parts for _, call in part]
    return 0, 0, calls, image


# the checker; a list is bytes, four a word
def check_list(t, image, q, listed):
    number, place = permitted(t, image, q)
    if number:
        return number, place
    if len(listed) % 4:
        return 19, 0
    left = [listed[i:i + 4] for i in range(0, len(listed), 4)]
    for part in parts_and_image(t, image, q)[0]:
        # calls of equal orders are taken from the list as a set, since their sequence is free
        while part:
            equal = sorted(call for key, call in part if key == part[0][0])
            if sorted(left[:len(equal)]) != equal:
                return 19, 0
            part, left = part[len(equal):], left[len(equal):]
    return (19, 0) if left else (0, 0)


# ---- the script, whose head says what a line asks
def hexed(b):
    return "".join(" %02x" % x for x in b)


def blank(n):
    return bytes([0xa5] * n)


def damaged(b, n, at, x):
    return (b[:at] + bytes([x]) + b[at + 1:])[:n]


def asked(args):
    return tuple(low + (high << 24) for low, high in zip(args[:4], args[4:8] or bytes(4)))


# numbers of a line by their lower and their higher bytes; a higher byte that is not there is zero
def counts(low, high):
    return [a + 256 * b for a, b in itertools.zip_longest(low, high, fillvalue=0)]


class Script:
    def __init__(self):
        self.table, self.state = b"", bytes(265)

    # the state is the first bytes of 265: as many as the version wants that the table states
    def sizes(self):
        return SIZES[2 if self.table[4:5] == b"\2" else 1]

    def lent(self):
        return self.state[:self.sizes().state]

    def planned(self, q, room):
        before = self.lent()
        number, place, calls, after = plan(self.table, before, q, room)
        self.state = at_front(after, self.state)
        listed = b"".join(calls)
        told = "%d %d 0" % check_list(self.table, before, q, listed)
        return f" {number} {place} {len(calls)} calls{hexed(listed)} state{hexed(after)}: check {told}"

    # the table's bytes are resources, then devices; a version has its lowest and its highest byte
    def written(self, r, at, x, n, low, high=0, *higher):
        end, at, room = counts((r, at, n), higher)
        lists = damaged(self.table, len(self.table), at, x)
        number, place, count, table = write(low + (high << 24), lists[:end], lists[end:], blank(room))
        return f" {number} {place} {count} table{hexed(table)}"

    def described(self, n, m, *higher):
        n, m = counts((n, m), higher)
        number, place, count, resources, devices = describe(self.table, blank(n), blank(m))
        return f" {number} {place} {count} resources{hexed(resources)} devices{hexed(devices)}"

    # the state's first n bytes with x at `at`
    def state_given(self, n, at, x, *higher):
        n, at = counts((n, at), higher)
        return damaged(self.state, n, at, x)

    def table_tried(self, n, at, x, m, *higher):
        n, at, m = counts((n, at, m), higher)
        return fresh(damaged(self.table, n, at, x), blank(m))[:2]

    # what is printed after a line, if anything
    def line(self, letter, args):
        if letter == "T":
            self.table = b""
        elif letter == "+":
            self.table += args[1:] * args[0]
        elif letter == "F":
            number, place, state = fresh(self.table, blank(self.sizes().state))
            self.state = at_front(state, blank(265))
            return f" {number} {place} 0"
        elif letter == "K":
            w, entries = self.sizes().set, 4 * self.sizes().limit
            self.state = at_front(args[w:].ljust(entries, b"\0")[:entries] + args[:w].ljust(w, b"\0"), bytes(265))
        elif letter == "Q":
            return self.planned(asked(args), 4 * self.sizes().list)
        elif letter == "P":
            return self.planned(asked(args), le(args[8:10]))
        elif letter == "B":
            return self.planned(BRING_UP, le(args[:2]))
        elif letter == "C":
            return " check %d %d 0" % check_list(self.table, self.lent(), BRING_UP, args)
        elif letter == "L":
            return " check %d %d 0" % check_list(self.table, self.lent(), asked(args[:4]), args[4:])
        elif letter == "W":
            return " check %d %d 0" % check_list(self.table, self.lent(), asked(args[:4]), args[4:len(args) // 4 * 4])
        elif letter == "D":
            return " %d %d 0" % self.table_tried(*args)
        elif letter == "S":
            return " check %d %d 0" % check_list(self.table, self.state_given(*args[4:]), asked(args[:4]), b"")
        elif letter == "V":
            return " check %d %d 0" % check_both(self.table, self.state_given(*args))
        elif letter == "R":
            return hexed(record(self.table, args[0]))
        elif letter == "M":
            return self.written(*args)
        elif letter == "E":
            return self.described(*args)
        return None


# ---- checks of this script itself, on the bench station in each version: what it describes is written as itself, and each refusal comes
# in its turn
def check_descriptions(t):
    R, D, limit = t[3], t[6], sizes(t).limit
    number, place, count, resources, devices = describe(t, blank(4 * R + 1), blank(54 * D + 2))
    assert (number, place, count) == (0, 0, 4 * R + 54 * D) and resources[4 * R:] == blank(1) and devices[54 * D:] == blank(2)
    resources, devices = resources[:-1], devices[:-2]
    assert write(t[4], resources, devices, blank(len(t) + 3)) == (0, 0, len(t), t + blank(3))

    def refused(number, place, resources=resources, devices=devices, version=t[4], room=len(t)):
        assert write(version, resources, devices, blank(room)) == (number, place, 0, blank(room))

    refused(1, 0, version=65536 + t[4], resources=blank(400))
    refused(2, 0, resources=blank(limit * 4 + 1), room=0)
    refused(2, 0, devices=blank(limit * 54 + 1), room=0)
    refused(9, 0, resources=blank(4 * R), room=len(t) - 1)
    refused(4, R - 1, resources=resources[:-1], devices=blank(54 * D))
    refused(5, D - 1, devices=devices[:-1])
    refused(5, 1, devices=damaged(devices, 54 * D, 54 + 36 + 5, 1))  # bit 40 of the camera's _PRW
    refused(6, 2, devices=damaged(devices, 54 * D, 2 * 54 + 1, 8))  # the lamp has _PS3 and no _PS0
    assert describe(t, blank(4 * R - 1), blank(54 * D)) == (9, 0, 0, blank(4 * R - 1), blank(54 * D))
    assert describe(t[:-1], blank(0), blank(0)) == (3, 0, 0, blank(0), blank(0))


# the same station in another version
def as_version(t, version):
    _, _, _, resources, devices = describe(t, bytes(4 * t[3]), bytes(54 * t[6]))
    room = table_size(SIZES[version], t[3], t[6])
    return write(version, resources, devices, bytes(room))[3]


# a state from the first entries and the on-set
def image_of(t, entries, on):
    return with_on_set(t, entries.ljust(4 * sizes(t).limit, b"\0"), on)


# bring-up from any states, the camera armed for S3 and D2 or not, and any on-set: it is refused as though all were on; else only the on-set
# changes, and then nothing is left to do
def check_bring_up(t):
    for bus, camera, lamp, pair, on in itertools.product(range(5), range(5), range(5), (bytes(3), bytes([1, 3, 2])), range(8)):
        entries = bytes([bus, 0, 0, 0, camera]) + pair + bytes([lamp])
        image = image_of(t, entries, on)
        number, place, calls, after = plan(t, image, BRING_UP, 4 * sizes(t).list)
        assert (number, place) == check_both(t, image_of(t, entries, 7))
        assert check_list(t, image, BRING_UP, b"".join(calls)) == (number, place)
        if number == 0:
            assert after == image_of(t, entries, on_set(t, after)) and check_both(t, after) == (0, 0)
            assert plan(t, after, BRING_UP, 4 * sizes(t).list) == (0, 0, [], after)


# the calls of sleep entry are the planner's for its moves, one after the other
def check_moves(t, image, x, calls, after):
    for q in sleep_moves(t, image, x):
        number, _, listed, image = plan(t, image, q, 4 * sizes(t).list)
        assert number == 0 and calls[:len(listed)] == listed
        calls = calls[len(listed):]
    assert not calls and image == after


# sleep entry from any consistent state of three devices, two of them on the first, with device 1 armed for S3 or not and all on: its states
# are the least of all choices, and 21 is where there is none; what is on afterwards may be on in the sleep state, and nothing is left to do.
# Gives the answers that there were
def check_sleep(t):
    resources, devices = split(t)
    levels = [b[0] for b in resources]
    pairs = (bytes(3), bytes([1, 3, 2]), bytes([1, 3, 3]))
    numbers = set()
    for bus, camera, lamp, pair, x in itertools.product(range(5), range(5), range(5), pairs, range(1, 5)):
        image = image_of(t, bytes([bus, 0, 0, 0, camera]) + pair + bytes([lamp]), 7)
        if check_both(t, image) != (0, 0):
            continue
        fit = [[y for y in range(5) if may_take(devices[d], levels, image[4 * d:4 * d + 4], x, y)] for d in range(3)]
        choices = [c for c in itertools.product(*fit) if c[0] <= c[1] and c[0] <= c[2]]
        number, place, calls, after = plan(t, image, (SLEEP, 0, x, 0), 4 * sizes(t).sleep)
        numbers.add(number)
        if number:
            assert (number, place) == ((20, 1) if pair[0] and x != 3 else (21, 0)) and (calls, after) == ([], image)
            assert number == 20 or not choices
            continue
        states = (after[0], after[4], after[8])
        assert states in choices and all(states[d] <= c[d] for c in choices for d in range(3))
        check_moves(t, image, x, calls, after)
        assert powered_in(x, on_set(t, after), levels)
        assert plan(t, after, (SLEEP, 0, x, 0), 4 * sizes(t).sleep) == (0, 0, [], after)
    return numbers


# a table of version 1 and the same station in version 2: the same answer and calls, and the same end, from any consistent state with all on
def check_versions(t):
    other = as_version(t, 2)
    requests = [(MOVE, d, a, 0) for d in range(3) for a in range(5)] + [(ARM, 1, s, d) for s in range(5) for d in range(5)]
    requests += [(DISARM, 1, 0, 0), BRING_UP] + [(SLEEP, 0, x, 0) for x in range(1, 5)]
    for bus, camera, lamp, pair in itertools.product(range(5), range(5), range(5), (bytes(3), bytes([1, 3, 2]))):
        entries = bytes([bus, 0, 0, 0, camera]) + pair + bytes([lamp])
        image, wide = image_of(t, entries, 7), image_of(other, entries, 7)
        assert check_both(t, image) == check_both(other, wide)
        for q in requests if check_both(t, image) == (0, 0) else []:
            *answer, after = plan(t, image, q, 4224)
            assert plan(other, wide, q, 16640) == (*answer, image_of(other, after[:128], on_set(t, after)))


if __name__ == "__main__":
    root = pathlib.Path(__file__).parent.parent
    station = (root / "examples" / "station.pwt").read_bytes()
    assert as_version(as_version(station, 2), 1) == station
    # also with _S3D 3 of the bus, with r1 in the camera's _PR2, and without the lamp's _PR3
    stations = [station, *(damaged(station, len(station), at, x) for at, x in ((46, 3), (72, 7), (102, 1)))]
    for version in SIZES:
        check_descriptions(as_version(station, version))
        check_bring_up(as_version(station, version))
        assert [check_sleep(as_version(t, version)) for t in stations] == [{0, 20}, {0, 20, 21}, {0, 20, 21}, {20, 21}]
    check_versions(station)
    script = Script()
    for line in (root / "crates" / sys.argv[1] / "stdin").read_text().splitlines():
        answer = script.line(line[:1], bytes.fromhex("" if line[:1] == "#" else line[1:]))
        print(line if answer is None else f"{line}:{answer}")
