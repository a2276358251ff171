"""The limits of the machines, and what is counted in pages."""
PAGE = 4096
MOST_PAGES = 1 << 36
MOST_READ = 4096
MOST_PINNED = 256
MOST_DATA = 4096
LINE_BYTES = 16_384
ROOT_FIRST, ROOT_END = 0x200000 // PAGE, (1 << 56) // PAGE


def pages_in(size):
    """Returns how many pages hold so many bytes."""
    return -(-size // PAGE)


def touched(offset, length):
    """Returns the pages that hold a byte of the range."""
    return range(offset // PAGE, pages_in(offset + length)) if length else range(0)


def len_of(pages):
    """Returns how many pages a range has, which may be more than `len` answers."""
    return max(pages.stop - pages.start, 0)


def meet(some, others):
    """Returns whether two ranges have a page in common."""
    return some.start < others.stop and others.start < some.stop


def is_inside(some, others):
    """Returns whether a range lies in another."""
    return others.start <= some.start and some.stop <= others.stop
