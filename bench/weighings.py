"""The script of a book that ends with a snapshot, for bench/audit.py and bench/standby.py."""


def script(rows):
    """A day of a script with so many rows: batches of 10 000 packs, one after another."""
    yield "day 2025-03-03\nproduct P 250\ntare P 2025-03-03 10\n"
    left, batch, mass = rows - 3, 0, 1
    while left > 2:
        batch += 1
        packs = min(10_000, left - 3)
        yield f"open B{batch} P\nstart 1 B{batch}\n"
        for pack in range(packs):
            mass = mass * 16807 % 2147483647
            yield f"weigh 1 {256 + mass % 10}.{mass % 1000:03d} {'opened' if pack else 'none'}\n"
        yield "stop 1 opened\n"
        left -= packs + 3
