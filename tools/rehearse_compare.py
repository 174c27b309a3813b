#!/usr/bin/env python3
"""Random and boundary inputs for `rehearse`, compared byte for byte with rehearse_model.py.

    python3 tools/rehearse_compare.py PROGRAM [cases [first seed]]

One case is one seed, so every case can be made again: tools/rehearse_compare.py --show SEED.
"""
import os
import random
import subprocess
import sys
import threading
import time
from collections import Counter

sys.path.insert(0, os.path.dirname(os.path.abspath(__file__)))
import rehearse_model as model

NAMES1 = b"houses bad rule"
NAMES3 = b"call at house number text"
TEXTS = [b"a", b"b", b"spring", b"summer"]
HUGE = [b"255", b"256", b"257", b"259", b"260", b"512", b"4096", b"32767", b"32768",
        b"65280", b"65534", b"65535"]
TOO_HUGE = [b"65536", b"65537", b"65540", b"70000", b"99999", b"100000", b"131072", b"655350",
            b"4294967295", b"4294967296", b"4294967297", b"18446744073709551616",
            b"18446744073709551617", b"340282366920938463463374607431768211457", b"9" * 400,
            b"1" + b"0" * 64]


def num(x):
    return str(x).encode()


# ---- lines

def text(r):
    x = r.random()
    if x < 0.93:
        return r.choice(TEXTS)
    if x < 0.96:
        return b"T" * 64
    if x < 0.97:
        return bytes([33]) + bytes([126]) * 63
    if x < 0.985:
        return bytes(r.randrange(33, 127) for _ in range(r.randrange(1, 65)))
    return r.choice([b"0", b"note", b"a" * 63, b"!", b"~", b"aa", b"A"])


def house(r, n):
    x = r.random()
    if x < 0.9:
        return num(r.randrange(max(n, 1)))
    if x < 0.97:
        return num(n)
    return r.choice(HUGE)


def number(r):
    x = r.random()
    if x < 0.7:
        return num(r.randrange(0, 4))
    if x < 0.97:
        return num(r.randrange(0, 8))
    return r.choice(HUGE)


def random_line(r, n):
    x = r.random()
    if x < 0.12:
        return b"announce %s 0 0 %s" % (house(r, n), text(r))
    call = b"note" if x < 0.65 else b"file"
    return b"%s %s %s %s %s" % (call, house(r, n), house(r, n), number(r), text(r))


def bad_line(r, n):
    """One fault of each kind that the page lists, and some more."""
    f = random_line(r, n).split(b" ")
    which = r.randrange(24)
    i = r.randrange(1, 4)
    if which == 0:
        f[0] = r.choice([b"", b"Note", b"notes", b"not", b"files", b"fil", b"open", b"line", b"sign",
                         b"announced", b"announc", b"start", b"add", b"close", b"issue", b"n", b"\xff",
                         b"note\0", b"\tnote", b"NOTE", b"FILE", b"filE"])
    elif which == 1:
        f = f[:r.randrange(0, 5)]
    elif which == 2:
        f += r.choice([[b"x"], [b"0"], [b""], [b"", b""], [b"a", b"b"]])
    elif which == 3:
        f = []
    elif which == 4:
        f.insert(r.randrange(0, 6), b"")
    elif which == 5:
        f[i] = b""
    elif which == 6:
        f[i] = r.choice([b"0", b"00", b"000000"]) + f[i]
    elif which == 7:
        f[i] = r.choice([b"+", b"-"]) + f[i]
    elif which == 8:
        f[i] = r.choice([b"x", b"1x", b"x1", b"1.0", b"0x1", b"1e1", b":", b"/", b"1_0", b"1,0", b"\xb2",
                         b"\xd9\xa1", b"1\r", b"1\t", b"1\0", b"\xb1", b"0\0", b"1/", b"1:", b"?"])
    elif which in (9, 10):
        f[i] = r.choice(TOO_HUGE)
    elif which == 11:
        f[4] = b""
    elif which == 12:
        f[4] = b"T" * r.choice([65, 65, 65, 66, 128, 255, 256, 257, 300, 1000])
    elif which in (13, 14):
        t = bytearray(f[4])
        t[r.randrange(len(t))] = r.choice([0, 1, 9, 11, 12, 13, 31, 127, 128, 160, 161, 200, 254, 255])
        f[4] = bytes(t)
    elif which == 15:
        f[4] += b"\r"
    elif which == 16:
        f = [b"announce", f[1], r.choice([b"0", b"1", b"00", b"65535"]), r.choice([b"1", b"2", b"00"]), f[4]]
    elif which == 17:
        f = [b"announce", f[1], r.choice([b"1", b"2", b"65535"]), b"0", f[4]]
    elif which == 18:
        return b"\t".join(f)
    elif which == 19:
        return b"\0" * r.randrange(1, 40)
    elif which == 20:
        return r.choice([b" ", b"  ", b"    ", b"\r", NAMES1, NAMES3, b"line call outcome value", b"1 open 24 0"])
    elif which == 21:
        return bytes(b for b in r.randbytes(r.randrange(0, 40)) if b != 10)
    elif which == 22:
        return b" ".join(f) + b" "
    else:
        return b" " + b" ".join(f)
    return b" ".join(f)


def noisy(r, lines, n, bad, rnd):
    out = []
    for line in lines:
        while r.random() < bad:
            out.append(bad_line(r, n))
        while r.random() < rnd:
            out.append(random_line(r, n))
        out.append(line)
    return out


# ---- the opening

def pick_opening(r):
    """n, t, mark that open."""
    n = r.choice([1, 2, 3, 4, 4, 4, 5, 6, 7, 7, 8, 9, 10, 11, 12, 13, 14, 15, 16, 16])
    t = r.choice([0, (n - 1) // 3, r.randint(0, (n - 1) // 3)])
    return n, t, r.choice([1, 2])


def opening(n, t, mark):
    return [NAMES1, b"%d %d %d" % (n, t, mark), NAMES3]


def bad_opening(r):
    n, t, mark = pick_opening(r)
    head = opening(n, t, mark)
    which = r.randrange(12)
    if which == 0:
        head[1] = b"%d %d %d" % (r.choice([0, 17, 18, 255, 256, 257, 260, 272, 65535]), t, mark)
    elif which == 1:
        head[1] = b"%d %d %d" % (n, (n + 2) // 3 + r.choice([0, 1, 2]), mark)
    elif which == 2:
        head[1] = b"%d %d %d" % (n, r.choice([85, 86, 255, 256, 257, 21844, 21845, 21846, 43690, 43691, 65535]), mark)
    elif which == 3:
        head[1] = b"%d %d %d" % (r.choice([0, 17, n]), r.choice([t, 99, 0]), r.choice([0, 3, 4, 255, 256, 257, 258, 65535]))
    elif which == 4:
        f = head[1].split(b" ")
        f[r.randrange(3)] = r.choice(TOO_HUGE + [b"", b"00", b"01", b"-1", b"+1", b"x", b"1\r", b"\x31\0"])
        head[1] = b" ".join(f)
    elif which == 5:
        head[1] = r.choice([b"", b" ", b"4 1", b"4", b"4 1 2 ", b" 4 1 2", b"4  1 2", b"4 1 2 0", b"4 1 2\r",
                            b"4\t1\t2", b"4 1 2 2", b"04 1 2", b"4 01 2", b"4 1 02", b"17 1", b"0 0 0", b"17 9 3"])
    elif which == 6:
        k = r.choice([0, 2])
        head[k] = r.choice([b"", head[k] + b" ", b" " + head[k], head[k] + b"\r", head[k][:-1], head[k].upper(),
                            head[k].replace(b" ", b"  ", 1), head[k] + b"x", head[2 - k], b"\xef\xbb\xbf" + head[k]])
    elif which == 7:
        del head[r.randrange(3)]
    elif which == 8:
        head.insert(r.randrange(4), r.choice([b"", NAMES1, NAMES3, b"4 1 2"]))
    elif which == 9:
        r.shuffle(head)
    elif which == 10:
        whole = b"\n".join(head) + b"\n"
        return whole[:r.randrange(len(whole) + 1)], n, False
    else:
        b = bytearray(b"\n".join(head))
        b[r.randrange(len(b))] = r.randrange(256)
        head = bytes(b).split(b"\n")
    return b"\n".join(head) + b"\n", n, True


# ---- bodies

def rounds(r, n, t, mark, limit):
    """Editions announced, noted and filed in their order, so that most calls are taken."""
    rule = model.Rule(n, t, mark)
    owners = r.sample(range(n), r.randint(1, n))
    nxt = {j: 1 for j in owners}
    skip = r.choice([0, 0, 0.02, 0.1, 0.3])
    lines = []
    while len(lines) < limit:
        j = r.choice(owners)
        k = nxt[j]
        d = text(r)
        if r.random() > skip:
            lines.append(b"announce %d 0 0 %s" % (j, d))
        part = [b"note %d %d %d %s" % (i, j, k, d) for i in sorted(rule.named(j, k)) if r.random() > skip]
        if r.random() < 0.5:
            r.shuffle(part)
        lines += part
        part = [b"file %d %d %d %s" % (i, j, k, d) for i in range(n) if r.random() > skip]
        r.shuffle(part)
        lines += part
        if r.random() > skip / 2:
            nxt[j] = k + 1
    return lines[:limit]


def drain(r, n, t, mark, limit):
    """One house notes all that it can and files as often as it must, so that its seals run out."""
    rule = model.Rule(n, t, mark)
    a = r.randrange(n)
    lines, k0 = [], 1
    while len(lines) < limit:
        for j in range(n):
            for k in range(k0, k0 + 4):
                if len(lines) < limit:
                    lines.append(b"note %d %d %d a" % (a, j, k))
        for j in r.sample(range(n), r.randint(1, n)):
            named = sorted(rule.named(j, k0))
            lines += [b"note %d %d %d a" % (i, j, k0) for i in r.sample(named, min(len(named), rule.need() + 1))]
            lines.append(b"file %d %d %d a" % (a, j, k0))
        k0 += 1
        if r.random() < 0.1:
            lines.append(b"announce %d 0 0 a" % a)
    return lines[:limit]


def clash(r, n, t, mark, limit):
    """Few houses, numbers and texts: 12, 13, 9, 10 and 19 close together."""
    lines = []
    hs = r.sample(range(n), min(n, r.randint(1, 4)))
    for _ in range(limit):
        call = r.choice([b"note", b"note", b"note", b"file"])
        lines.append(b"%s %d %d %d %s" % (call, r.randrange(n), r.choice(hs), r.choice([1, 1, 1, 2, 2, 3, 4, 5, 6]),
                                          r.choice([b"a", b"a", b"a", b"a", b"b"])))
    return lines


def mutated(r, data):
    b = bytearray(data)
    for _ in range(r.choice([1, 1, 2, 3, 8])):
        if not b:
            break
        i = r.randrange(len(b))
        w = r.randrange(5)
        if w == 0:
            b[i] = r.choice([0, 9, 10, 13, 32, 48, 127, 255, r.randrange(256)])
        elif w == 1:
            del b[i]
        elif w == 2:
            b.insert(i, r.choice([10, 32, 32, 13, 48, 49, r.randrange(256)]))
        elif w == 3:
            j = min(len(b), i + r.randrange(1, 30))
            del b[i:j]
        else:
            j = min(len(b), i + r.randrange(1, 30))
            b[i:i] = b[i:j]
    return bytes(b)


def at_the_limits(r):
    n, t, mark = pick_opening(r)
    if r.random() < 0.2:
        head = bad_opening(r)[0]
    else:
        head = b"\n".join(opening(n, t, mark)) + b"\n"
    if r.random() < 0.5:                                   # 1,000 event lines, more or fewer
        count = r.choice([999, 1000, 1000, 1001, 1001, 1002])
        kind = r.randrange(4)
        if kind == 0:
            lines = rounds(r, n, t, mark, count)
        elif kind == 1:
            lines = [b""] * count
        elif kind == 2:
            lines = drain(r, n, t, mark, count)
        else:
            lines = [random_line(r, n) if r.random() < 0.9 else bad_line(r, n) for _ in range(count)]
        lines = lines[:count]
        data = head + b"".join(l + b"\n" for l in lines)
        x = r.random()
        if x < 0.25:
            data = data[:-1]
        elif x < 0.5:
            data += r.choice([b"x", b" ", b"\r", b"\0", b"note 0 0 1 a"])
        return data
    size = r.choice([65535, 65536, 65536, 65536, 65537, 65537, 65538, 65600, 70000, 131072, 131073, 1000000])
    kind = r.randrange(4)
    if kind == 0:                                          # one line far too long
        data = head + b"note 0 0 1 a\n" + b"x" * size
        data = data[:size]
        return data if r.random() < 0.5 else data[:-1] + b"\n"
    if kind == 1:                                          # good lines, then one long text
        lines = rounds(r, n, t, mark, r.randint(1, 900))
        data = head + b"".join(l + b"\n" for l in lines)
        data = (data + b"note 0 0 1 " + b"y" * size)[:size - 1] + b"\n"
        if r.random() < 0.3:
            data = data[:-1] + b"z"
        return data
    if kind == 2:                                          # 900 lines of 64-byte texts and padding in the last
        data = head
        while len(data) < size - 200 and data.count(b"\n") < 990:
            data += b"note %d %d %d %s\n" % (r.randrange(n + 1), r.randrange(n + 1), r.randrange(6),
                                            r.choice([b"Q", b"R"]) * 64)
        return data + b"x" * max(0, size - len(data) - 1) + r.choice([b"\n", b"y"])
    return (head + b"\n" * size)[:size]                    # both limits at once


def make(seed):
    r = random.Random(seed)
    x = r.random()
    if x < 0.06:
        return at_the_limits(r)
    if x < 0.14:
        head, n, whole = bad_opening(r)
        if not whole:
            return head
        body = [random_line(r, n) for _ in range(r.randrange(6))]
        return head + b"".join(l + b"\n" for l in body)
    n, t, mark = pick_opening(r)
    size = r.choice([0, 1, 3, 10, 10, 30, 30, 60, 60, 150, 300, 700, 1000])
    kind = r.randrange(5)
    if kind == 0:
        body = [random_line(r, n) for _ in range(size)]
    elif kind == 1:
        body = clash(r, n, t, mark, size)
    elif kind == 2:
        body = drain(r, n, t, mark, size)
    else:
        body = rounds(r, n, t, mark, size)
    y = r.random()
    if y < 0.6:
        bad, rnd = r.choice([(0, 0.1), (0.05, 0), (0.05, 0.1), (0.3, 0.2), (0.6, 0)])
        body = noisy(r, body, n, bad, rnd)[:r.choice([1000, 1000, 1000, 1000, 1001])]
    data = b"".join(l + b"\n" for l in opening(n, t, mark) + body)
    z = r.random()
    if z < 0.08:
        data = data[:-1]
    elif z < 0.12:
        data += bad_line(r, n)
    elif z < 0.14:
        data = data.replace(b"\n", b"\r\n") if r.random() < 0.3 else data.replace(b"a\n", b"a\r\n")
    elif z < 0.26:
        data = mutated(r, data)
    return data


# ---- running

def run(program, data):
    p = subprocess.run([program], input=data, stdout=subprocess.PIPE, stderr=subprocess.PIPE, timeout=60)
    return p.returncode, p.stdout, p.stderr


def run_in_pieces(program, data, r):
    """The same input, but written in small pieces, so that reads come short."""
    p = subprocess.Popen([program], stdin=subprocess.PIPE, stdout=subprocess.PIPE, stderr=subprocess.PIPE)

    def feed():
        i = 0
        try:
            while i < len(data):
                k = r.choice([1, 2, 7, 100, 1000, 4096, 30000])
                os.write(p.stdin.fileno(), data[i:i + k])
                i += k
                if r.random() < 0.2:
                    time.sleep(0.0005)
        except BrokenPipeError:
            pass
        p.stdin.close()
    f = threading.Thread(target=feed)
    f.start()
    out = p.stdout.read()
    err = p.stderr.read()
    f.join()
    return p.wait(), out, err


def shrink(program, data):
    """Leave out lines, then bytes, as long as the two still differ."""
    def differs(d):
        return run(program, d)[:2] != (0, model.rehearse(d))
    for cut in (lambda d: [l + b"\n" for l in d.split(b"\n")[:-1]] + [d.split(b"\n")[-1]],
                lambda d: [d[i:i + 1] for i in range(len(d))]):
        parts = cut(data)
        step = max(1, len(parts) // 2)
        while True:
            i = 0
            while i < len(parts):
                less = parts[:i] + parts[i + step:]
                if differs(b"".join(less)):
                    parts = less
                else:
                    i += step
            if step == 1:
                break
            step //= 2
        data = b"".join(parts)
    return data


def main():
    if sys.argv[1] == "--show":
        sys.stdout.buffer.write(make(int(sys.argv[2])))
        return
    program = sys.argv[1]
    cases = int(sys.argv[2]) if len(sys.argv) > 2 else 5000
    first = int(sys.argv[3]) if len(sys.argv) > 3 else 0
    outcomes, seen, bad, lines, pieces = Counter(), set(), 0, 0, 0
    biggest_row, sizes, counts = 0, Counter(), Counter()
    for seed in range(first, first + cases):
        data = make(seed)
        want = model.rehearse(data)
        if program == "none":
            got = (0, want, b"")
        elif seed % 20 == 7:
            pieces += 1
            got = run_in_pieces(program, data, random.Random(seed))
        else:
            got = run(program, data)
        seen.add(data)
        if len(data) >= 65530:
            sizes[min(len(data), 65539)] += 1
        events = data.count(b"\n") - 3 + (0 if data.endswith(b"\n") else 1)
        if events >= 999:
            counts[min(events, 1003)] += 1
        for line in want.split(b"\n")[1:-1]:
            f = line.split(b" ")
            outcomes[(f[1].decode(), int(f[2]))] += 1
            lines += 1
            if f[1] == b"note":
                biggest_row = max(biggest_row, int(f[3]))
        if got != (0, want, b""):
            bad += 1
            print("MISMATCH seed %d status %d stderr %r" % (seed, got[0], got[2][:200]))
            if bad <= 5:
                small = shrink(program, data)
                print("  minimal input:", small)
                print("  model:  ", model.rehearse(small))
                print("  program:", run(program, small))
    print("cases %d (different inputs %d, fed in pieces %d), output lines %d, mismatches %d"
          % (cases, len(seen), pieces, lines, bad))
    print("largest row", biggest_row)
    print("sizes (65539 = or more)", sorted(sizes.items()))
    print("event lines (1003 = or more)", sorted(counts.items()))
    for (call, number), c in sorted(outcomes.items()):
        print("  %-8s %2d %8d" % (call, number, c))
    sys.exit(1 if bad else 0)


if __name__ == "__main__":
    main()
