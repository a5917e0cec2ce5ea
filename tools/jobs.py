"""Job files in Python: a maker and a second reader. They share no code with the proved reader, but have the same author."""
import struct


class Refused(Exception):
    def __init__(self, number, place):
        super().__init__(f"refused {number} {place}")
        self.number, self.place = number, place


def make(rows, dues, labels, edition=1):
    """A file with rows, records and labels one after another, in this order, and nothing else."""
    rows_at = 12
    records_at = rows_at + 8 * len(rows)
    at = records_at + 6 * len(dues)
    body = b"".join(struct.pack("<Q", row) for row in rows)
    text = b""
    for due, label in zip(dues, labels):
        body += struct.pack("<HHH", due, at + len(text), len(label))
        text += label
    length = at + len(text)
    return struct.pack("<6H", edition, len(rows), len(dues), rows_at, records_at, length) + body + text


def read(data):
    """Sheets as sets of orders, dues (None for none) and labels; or Refused."""
    if len(data) < 12:
        raise Refused(1, len(data))
    edition, n, m, rows_at, records_at, length = struct.unpack_from("<6H", data)
    if edition != 1:
        raise Refused(2, edition)
    if length != len(data):
        raise Refused(3, len(data))
    if not 1 <= n <= 16:
        raise Refused(4, n)
    if not 1 <= m <= 64:
        raise Refused(5, m)

    def lies(at, size):
        return at in range(12, len(data) - size + 1)

    if not lies(rows_at, 8 * n):
        raise Refused(6, 6)
    if not lies(records_at, 6 * m):
        raise Refused(6, 8)
    sheets = []
    for sheet in range(n):
        bits = data[rows_at + 8 * sheet : rows_at + 8 * sheet + 8]
        orders = {8 * i + b for i in range(8) for b in range(8) if bits[i] >> b & 1}
        if not orders:
            raise Refused(11, sheet)
        if max(orders) >= m:
            raise Refused(12, sheet)
        sheets.append(orders)
    dues, labels = [], []
    for order in range(m):
        due, at, size = struct.unpack_from("<3H", data, records_at + 6 * order)
        if not any(order in orders for orders in sheets):
            raise Refused(13, order)
        if due > n:
            raise Refused(14, order)
        if size not in range(1, 17) or not lies(at, size):
            raise Refused(15, order)
        label = data[at : at + size]
        if any(byte not in range(33, 127) for byte in label):
            raise Refused(16, order)
        if label in labels:
            raise Refused(17, order)
        dues.append(due or None)
        labels.append(label)
    return sheets, dues, labels


def info(data):
    """What jobinfo prints for these bytes, and its exit status."""
    try:
        sheets, dues, labels = read(data[:8192])
    except Refused as refused:
        return f"{refused}\n".encode(), 1
    lines = [b"job %d %d" % (len(sheets), len(dues))]
    for sheet, orders in enumerate(sheets):
        lines.append(b" ".join([b"sheet %d" % sheet] + [labels[order] for order in sorted(orders)]))
    for order, (due, label) in enumerate(zip(dues, labels)):
        lines.append(b"order %d %s %s" % (order, label, b"none" if due is None else b"%d" % due))
    return b"".join(line + b"\n" for line in lines), 0


WORKED = make([3, 6, 1], [2, 0, 3], [b"K7", b"M2", b"R9"])
