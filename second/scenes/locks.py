"""Static and dynamic locks."""

from scenes.images import LAYOUT_OF_SIZE


def write_each(s, pages):
    """Writes each page; a locked one also authenticated, which then ends. Lock
    pages get no bits."""
    for page in s.dice.shuffled(pages):
        data = [0, 0, 0, 0] if page in (2, s.layout.lock_page) else s.dice.four()
        s.active()
        s.obey(0xA2, page, *data)
        if s.radio.state != "ACTIVE":
            s.active(authenticated=True)
            s.command(0xA2, page, *data)
            s.active()


def static_locks(s, size, pages, dynamic_byte):
    """These pages locked: each page from 2 to 16 is written."""
    dice = s.dice
    locks = sum(1 << page for page in pages)
    s.image(size, page_2=[0, 0, locks % 256, locks // 256],
            lock_page=[dynamic_byte, 0, 0, 0])
    write_each(s, range(2, 17))


def any_static_locks(s):
    static_locks(s, s.dice.size(), s.dice.some(s.dice.between(1, 12), range(3, 16)), s.dice.byte())


def dynamic_locks(s, size, lock_bits):
    """These lock bits set: the first and last page of every bit is written, and
    the pages before and behind."""
    dice = s.dice
    locks = sum(1 << bit for bit in lock_bits)
    page = [locks % 256, locks // 256, dice.byte(), dice.byte()]
    if dice.one_in(2):
        s.image(size, lock_page=page)
    else:
        s.image(size)
        s.address(0x4000 + 4 * s.layout.lock_page)
        s.send(*page)
        s.stop()
    edges = {15, 16, s.layout.lock_page}
    for pages in s.layout.dynamic.locks.values():
        edges |= {pages[0], pages[-1]}
    write_each(s, sorted(edges))


def any_dynamic_locks(s):
    size = s.dice.even_size()
    bits = len(LAYOUT_OF_SIZE[size].dynamic.locks)
    dynamic_locks(s, size, s.dice.some(s.dice.between(1, bits - 1), range(bits)))


def gaining(s, size, blocks):
    """WRITE to page 2 and to the lock page, with these block bits set before."""
    dice = s.dice
    s.image(size, page_2=[dice.byte(), dice.byte(), blocks & 7, 0],
            lock_page=[0, dice.byte() & 0xC0, blocks, dice.sparse_byte()])
    s.active()
    for page in (2, s.layout.lock_page):
        for _ in range(4):
            s.obey(0xA2, page, *[dice.one_of([dice.sparse_byte(), dice.byte()]) for _ in range(4)])
            s.command(0x3A, page, page)
        s.obey(0xA2, page, 0xFF, 0xFF, 0xFF, 0xFF)
        s.look_at_radio()
        s.obey(0xA2, page, 0, 0, 0, 0)
        s.command(0x3A, page, page)
        s.look_at_radio()


def one_lock_bit_at_a_time(s, size, blocks):
    """Each bit of page 2 and of the lock page by itself, block bits last."""
    dice = s.dice
    s.image(size, page_2=[0, 0, blocks & 7, 0], lock_page=[0, 0, blocks, 0])
    s.active()
    for page, blocks_at in ((2, {16, 17, 18}), (s.layout.lock_page, set(range(16, 24)))):
        others = set(range(32)) - blocks_at
        for bit in dice.shuffled(sorted(others)) + dice.shuffled(sorted(blocks_at)):
            s.obey(0xA2, page, *(1 << bit).to_bytes(4, "little"))
        s.command(0x3A, page, page)


def each_block_bit(s, size):
    """One block bit set by the two wires, then a WRITE of all lock bits: those
    that it blocks stay clear, and no other."""
    s.image(size)
    s.active()
    for k in range(8):
        for page in (2, s.layout.lock_page):
            bits = [0, 0, 1 << k, 0]
            s.address(0x4000 + 4 * page + (2 if page == 2 else 0))
            s.send(*(bits[2:] if page == 2 else bits))
            s.stop()
            asked = [0, 0, 0xF8, 0xFF] if page == 2 else [0xFF, 0xFF, 0, 0]
            s.command(0xA2, page, *asked)
            s.command(0x3A, page, page)


def block_and_lock_at_once(s, size):
    """A block bit and its locks in one write: the locks are set; afterwards none."""
    dice = s.dice
    s.image(size)
    s.active()
    for data in dice.shuffled([[0, 0, 0x09, 0x00], [0, 0, 0x52, 0x01], [0, 0, 0x04, 0x84]]):
        s.obey(0xA2, 2, *data)
    s.obey(0xA2, 2, 0xFF, 0xFF, 0xFF, 0xFF)
    for k in dice.shuffled(range(8)):
        locks = dice.between(1, 3) << 2 * k
        s.obey(0xA2, s.layout.lock_page, locks % 256, locks // 256, 1 << k, 0)
        s.command(0x3A, s.layout.lock_page, s.layout.lock_page)
    s.obey(0xA2, s.layout.lock_page, 0xFF, 0xFF, 0xFF, 0xFF)
    s.command(0x30, s.layout.lock_page)
    s.command(0x30, 0)


def any_gaining(s):
    dice = s.dice
    size = dice.even_size()
    if dice.one_in(4):
        one_lock_bit_at_a_time(s, size, dice.byte())
    elif dice.one_in(3):
        block_and_lock_at_once(s, size)
    else:
        gaining(s, size, dice.one_of([0, dice.sparse_byte(), dice.byte(), 0xFF]))


def stored(s):
    for pages in (range(4, 16, 2), range(3, 16)):
        static_locks(s, 45, pages, dynamic_byte=0x01)


def stored_of_size(s, size):
    lock_bits = len(LAYOUT_OF_SIZE[size].dynamic.locks)
    static_locks(s, size, range(3, 16, 2), dynamic_byte=0x00)
    dynamic_locks(s, size, range(0, lock_bits, 2))
    dynamic_locks(s, size, range(1, lock_bits, 2))
    dynamic_locks(s, size, [])
    for blocks in (0x00, 0x2A, 0x55, 0xFF):
        gaining(s, size, blocks)
    one_lock_bit_at_a_time(s, size, blocks=0x00)
    one_lock_bit_at_a_time(s, size, blocks=0xFF)
    each_block_bit(s, size)
    block_and_lock_at_once(s, size)


OF_ANY_KIND = [any_static_locks, any_dynamic_locks, any_dynamic_locks, any_gaining, any_gaining]
OF_ANY_SIZE = [each_block_bit]
