#!/usr/bin/env python3
"""Checks, trusting nobody, that a layout has the largest size and sends the fewest copies.

    python3 certificate.py CLUSTER.txt OLD.layout NEW.layout CERTIFICATE

The text file of the cluster, two layouts that `dezghuri plan --out` wrote (OLD may be -: there was none), and what
`dezghuri certify --out` wrote: lines `size N`, `sent N`, `price BOX N`.  Staged changes are not seen: apply them
first.  Status 0 where all of this holds, 1 where something does not, 2 where a file cannot be read:

1. NEW is a layout: each partition lies on R boxes in at least Z zones, and no box has more copies than room.
   The room of a box is the least of: one copy of each partition, its ceiling, its usable disk over the size.
2. No layout has a larger size: one MB more, and the boxes have room for fewer copies than are wanted, or the
   zones, in which each partition counts once, for fewer than Z of each.
3. None of this size sends fewer.  Let a copy cost the price of its box, and 1 more if it has to be sent.  The
   copies of a partition cost what its cheapest row costs, or more; prices in a box come to price times room, or
   less.  So every layout sends what the cheapest rows cost, less price times room, or more.
"""
import re, struct, sys

def want(fact, why, status=1):
    if not fact:
        print("does not hold:" if status == 1 else "cannot be read:", why, file=sys.stderr)
        sys.exit(status)

def number(word, least, most, where):
    want(re.fullmatch("[0-9]+", word) and least <= int(word) <= most, "%s: number '%s'" % (where, word), 2)
    return int(word)

def megabytes(word, where):
    """A number, perhaps with a fraction, and perhaps M, G or T (MB, GB, TB) by thousands, that is whole in MB."""
    found = re.fullmatch(r"(?=\.?[0-9])([0-9]*)\.?([0-9]*)(|M|MB|G|GB|T|TB)", word, re.IGNORECASE)
    want(found, "%s: capacity '%s'" % (where, word), 2)
    whole, part, unit = found.groups()
    scale = {"": 1, "M": 1, "G": 1000, "T": 1000000}[unit[:1].upper()]
    disk, rest = divmod(int(whole + part) * scale, 10 ** len(part))
    want(rest == 0 and disk < 2 ** 32, "%s: capacity '%s'" % (where, word), 2)
    return disk

def cluster(path):
    """Copies wanted, zones wanted, partitions, and (zone, usable MB, ceiling) of each box."""
    told, boxes, ceilings, zones = {}, {}, {}, {}
    for at, line in enumerate(open(path, "rb").read().decode("utf-8-sig").split("\n"), 1):
        line, where = line.split("#")[0].strip(" \t\r"), "%s, line %d" % (path, at)
        want(not re.search("[\0-\x08\x0a-\x1f\x7f-\x9f]", line), where + ": a control character", 2)
        word, *words = line.split() or [""]
        if word in ("copies", "zones", "bits"):
            want(len(words) == 1 and word not in told, where, 2)
            told[word] = number(words[0], 0 if word == "bits" else 1, 8, where)
        elif word == "box":
            want(len(words) >= 3 and len(boxes) < 32, where, 2)
            want(not re.fullmatch("[MGT]I?B?", "".join(words[3:4]).upper()), where + ": a unit stands apart", 2)
            box, zone = number(words[0], 1, 2 ** 32 - 1, where), words[1]
            zone = str(number(zone, 0, 65535, where)) if re.fullmatch("[0-9]+", zone) else zone
            want(box not in boxes, where + ": box %d again" % box, 2)
            want(zones.setdefault(zone.lower(), zone) == zone, where + ": zone '%s' in other letters" % zone, 2)
            boxes[box] = zone, megabytes(words[2], where)
        elif word:
            want(word == "ceiling" and len(words) == 2, where, 2)
            box = number(words[0], 1, 2 ** 32 - 1, where)
            want(box not in ceilings, where + ": the ceiling of box %d again" % box, 2)
            ceilings[box] = number(words[1], 0, 256, where)
    want({"copies", "zones"} <= set(told) and told["zones"] <= told["copies"], path + ": copies and zones", 2)
    want(boxes and set(ceilings) <= set(boxes), path + ": boxes and ceilings", 2)
    boxes = {i: (zone, disk - disk // 16, ceilings.get(i, 256)) for i, (zone, disk) in sorted(boxes.items())}
    return told["copies"], told["zones"], 2 ** told.get("bits", 8), boxes

def layout(path):
    """Size and rows of a layout record: fields of a tag, a length and a body, six of them and then the rows."""
    record = open(path, "rb").read()
    want(len(record) >= 29, path + ": too short for a layout", 2)
    head = struct.unpack_from(">BHB BHB BHI BHH BHB BHH", record)
    bits, R, size, sent, finished, improvements = head[2::3]
    want(head[::3] == (1, 2, 6, 7, 8, 9) and head[1::3] == (1, 1, 4, 2, 1, 2), path + ": other fields", 2)
    in_range = bits <= 8 and 1 <= R <= 8 and size and sent <= 2048 and finished <= 1 and improvements <= 2048
    want(in_range and len(record) == 29 + 2 ** bits * (5 + 4 * R), path + ": other numbers, or another length", 2)
    rows = [struct.unpack_from(">BHH%dI" % R, record, 29 + p * (5 + 4 * R)) for p in range(2 ** bits)]
    for p, (tag, length, partition, *ids) in enumerate(rows):
        rises = all(a < b for a, b in zip([0] + ids, ids))
        want((tag, length, partition) == (10, 2 + 4 * R, p) and rises, "%s: row %d" % (path, p), 2)
    return size, [set(row[3:]) for row in rows]

def certificate(path):
    """Size, copies sent, and the price of each box."""
    text = open(path, "rb").read().decode("utf-8")
    found = re.fullmatch("size ([0-9]+)\nsent ([0-9]+)\n((?:price [0-9]+ [0-9]+\n)+)", text)
    want(found, path + ": other lines than `size N`, `sent N`, `price BOX N`", 2)
    prices = [[int(word) for word in line.split()[1:]] for line in found[3].splitlines()]
    want(len(dict(prices)) == len(prices), path + ": two prices of a box", 2)
    return int(found[1]), int(found[2]), dict(prices)

def cheapest(boxes, R, Z, cost):
    """Of each zone the cheapest box, of those the Z cheapest, then the R - Z cheapest of all others.  No row is
    cheaper: take Z of its zones; the cheapest box of each in the place of the one that the row has there, the Z
    cheapest such boxes in the place of these, the cheapest others in the place of the rest: nothing gets dearer."""
    zones, first, rest = set(), [], []
    for i in sorted(boxes, key=lambda i: (cost[i], i)):
        if len(first) < Z and boxes[i][0] not in zones:
            zones.add(boxes[i][0])
            first.append(i)
        else:
            rest.append(i)
    return first + rest[:R - Z]

def check(R, Z, P, boxes, former, rows, size, sent, price):
    room = lambda s: {i: min(P, ceiling, usable // s) for i, (_, usable, ceiling) in boxes.items()}
    want(len(former) == len(rows) == P, "the layouts have %d and %d partitions" % (len(former), len(rows)))
    want(set(price) == set(boxes), "there is not one price for each box")
    # 1. NEW is a layout of the size.
    here = room(size)
    for p, row in enumerate(rows):
        want(len(row) == R and row <= set(boxes), "partition %d is not on %d of the boxes" % (p, R))
        want(len({boxes[i][0] for i in row}) >= Z, "partition %d is in fewer than %d zones" % (p, Z))
    for i in boxes:
        held = sum(i in row for row in rows)
        want(held <= here[i], "box %d has %d copies, and room for %d" % (i, held, here[i]))
    # 2. No layout has a larger size.
    more = room(size + 1)
    zones = {zone: sum(more[i] for i in boxes if boxes[i][0] == zone) for zone, _, _ in boxes.values()}
    want(sum(more.values()) < R * P or sum(min(P, n) for n in zones.values()) < Z * P, "a larger size is possible")
    # 3. None of this size sends fewer.
    sends = sum(len(row - old) for row, old in zip(rows, former))
    want(sends == sent, "the layout sends %d copies, and not %d" % (sends, sent))
    costs = [{i: price[i] + (i not in old) for i in boxes} for old in former]
    low = sum(cost[i] for cost in costs for i in cheapest(boxes, R, Z, cost))
    taken = sum(price[i] * here[i] for i in boxes)
    want(low - taken == sent, "the prices show %d copies, and the layout sends %d" % (low - taken, sent))
    print("holds: no layout is larger than %d MB, and every one of this size sends %d - %d = %d copies or more, as "
          "this one does" % (size, low, taken, sent))

def main(text, old, new, prices):
    R, Z, P, boxes = cluster(text)
    former = [set()] * P if old == "-" else layout(old)[1]
    (planned, rows), (size, sent, price) = layout(new), certificate(prices)
    want(size == planned, "the layout is one of %d MB, and not of %d" % (planned, size))
    check(R, Z, P, boxes, former, rows, size, sent, price)

if __name__ == "__main__":
    if len(sys.argv) != 5:
        print(__doc__, file=sys.stderr)
        sys.exit(2)
    try:
        main(*sys.argv[1:])
    except (OSError, ValueError) as error:
        want(False, error, 2)
