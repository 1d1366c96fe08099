"""Static and dynamic locks."""

from tag.bits import bits_of, bytes_of


class LockPlan:
    """Which bits of a page of four bytes lock which pages, and which block.

    The 32 bits of the page are numbered 0-31, least significant first.
    `locks` gives the pages that a lock bit locks, `blocks` the lock bits that
    a block bit blocks.
    """

    def __init__(self, locks, blocks):
        self.locks = locks
        self.blocks = blocks

    def locked_pages(self, page):
        bits = bits_of(page)
        return {number for place, numbers in self.locks.items() if bits[place]
                for number in numbers}

    def gained(self, page, asked):
        """The page after a WRITE.

        "A lock bit whose block bit was set before the write isn't set."
        Bits that are neither lock nor block bits are kept as they are.
        """
        old, new = bits_of(page), bits_of(asked)
        blocked = {lock for block, locks in self.blocks.items() if old[block]
                   for lock in locks}
        may_be_set = (set(self.locks) - blocked) | set(self.blocks)
        return bytes_of([before | (wish if place in may_be_set else 0)
                         for place, (before, wish) in enumerate(zip(old, new))])


def static_plan():
    """Image bytes 10 and 11 are bytes 2 and 3 of page 2.

    "Image byte 10: bit 0 blocks the lock of page 3, bit 1 blocks the locks of
    pages 4-9, bit 2 those of 10-15; bit 3 locks page 3, bits 4-7 pages 4-7.
    Byte 11: bits 0-7 lock pages 8-15."
    """
    first_place = 8 * 2
    locks = {first_place + page: [page] for page in range(3, 16)}
    blocked_pages = [range(3, 4), range(4, 10), range(10, 16)]
    blocks = {first_place + bit: {first_place + page for page in pages}
              for bit, pages in enumerate(blocked_pages)}
    return LockPlan(locks, blocks)


def dynamic_plan(last_user_page, lock_bits, pages_each, block_bits):
    """"They cover user pages from 16 up, in order."

    "Byte 2 holds block bits: bit k blocks lock bits 2k and 2k+1".
    """
    covered = range(16, last_user_page + 1)
    locks = {bit: covered[bit * pages_each:(bit + 1) * pages_each]
             for bit in range(lock_bits)}
    blocks = {8 * 2 + k: {2 * k, 2 * k + 1} for k in range(block_bits)}
    return LockPlan(locks, blocks)


STATIC = static_plan()
