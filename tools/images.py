"""Reads images, the disks of servers as files, as docs/IMAGE.md describes them."""

import hashlib
from typing import Dict, Iterator, List, NamedTuple, Optional, Tuple

from commands import rows_of

HEADER, PAGE, BLOCK, DIGEST = 16, 512, 448, 32
MOST_POOL, MOST_HEADS, MOST_DATA = 1_000, 1_000, 8_000
# A head has the addresses of so many blocks, as each map page has, and of so many map pages.
HEAD_BLOCKS, MOST_MAPS = 120, 20
VERSIONS = (1, 2)
KINDS = {1: "an intention", 2: "a prepared work", 3: "a work that is carried out", 4: "a commit flag"}


class NoImage(Exception):
    """Bytes are no image: the number of their fault."""

    def __init__(self, number: int):
        super().__init__(number)
        self.number = number


class Half(NamedTuple):
    """A physical page."""

    is_good: bool
    data: bytes


class Head(NamedTuple):
    """A head that is used: its file, and the data pages of the blocks that are stored there by the head itself and of the map pages."""

    file: int
    blocks: Dict[int, int]
    maps: Dict[int, int]


class Image(NamedTuple):
    """A disk: its version, its server, how many pages there are of each kind, and all physical pages."""

    version: int
    server: int
    pool: int
    heads: int
    data: int
    halves: List[Half]

    @property
    def count(self) -> int:
        """Returns how many stable pages there are."""
        return len(self.halves) // 2

    def page(self, stable: int) -> bytes:
        """Returns a stable page: its first half, or the second one where the first is bad."""
        first, second = self.halves[stable], self.halves[stable + self.count]
        return first.data if first.is_good else second.data

    def head_page(self, index: int) -> bytes:
        return self.page(1 + self.pool + index)

    def data_page(self, index: int) -> bytes:
        return self.page(1 + self.pool + self.heads + index)

    def epoch(self) -> int:
        return number_at(self.page(0), 12, 4)


def number_at(data: bytes, at: int, size: int) -> int:
    return int.from_bytes(data[at : at + size], "big")


def read_image(data: bytes) -> Image:
    """Returns the image of these bytes. Faults are looked for in the order of their table."""
    if len(data) < HEADER:
        raise NoImage(1)
    if data[:8] != b"JUNIMAGE":
        raise NoImage(2)
    if data[8] not in VERSIONS:
        raise NoImage(3)
    server, counts = data[9], [number_at(data, at, 2) for at in (10, 12, 14)]
    if server > 7 or not all(1 <= count <= most for count, most in zip(counts, (MOST_POOL, MOST_HEADS, MOST_DATA))):
        raise NoImage(4)
    pages = 2 * (1 + sum(counts))
    end = HEADER + (1 + PAGE) * pages
    if len(data) < end + DIGEST:
        raise NoImage(1)
    starts = range(HEADER, end, 1 + PAGE)
    if any(data[at] > 1 for at in starts):
        raise NoImage(5)
    if hashlib.sha256(data[:end]).digest() != data[end : end + DIGEST]:
        raise NoImage(6)
    if len(data) > end + DIGEST:
        raise NoImage(7)
    return Image(data[8], server, *counts, [Half(data[at] == 1, data[at + 1 : at + 1 + PAGE]) for at in starts])


def addresses_at(page: bytes, at: int, count: int) -> List[int]:
    return [number_at(page, at + 2 * it, 2) for it in range(count)]


def named_by(addresses: List[int]) -> Dict[int, int]:
    """Returns the data page of each address that isn't 0."""
    return {place: address - 1 for place, address in enumerate(addresses) if address}


def head_in(page: bytes, data_pages: int, version: int = 2) -> Optional[Head]:
    """Returns the head that a page is, where it is a used one of the format, with addresses of so many data pages.

    Behind the addresses of the blocks stand those of the map pages, which in version 1 are zeros.
    """
    blocks, maps = addresses_at(page, 5, HEAD_BLOCKS), addresses_at(page, 5 + 2 * HEAD_BLOCKS, MOST_MAPS)
    is_past = max(blocks + maps) > data_pages or version == 1 and any(maps)
    if page[0] != 1 or any(page[5 + 2 * (HEAD_BLOCKS + MOST_MAPS) :]) or is_past:
        return None
    return Head(number_at(page, 1, 4), named_by(blocks), named_by(maps))


def map_in(page: bytes, data_pages: int) -> Optional[Dict[int, int]]:
    """Returns of the map page that a page is, with addresses of so many data pages, the data page of each of its blocks that is stored."""
    addresses = addresses_at(page, 0, HEAD_BLOCKS)
    return None if any(page[2 * HEAD_BLOCKS :]) or max(addresses) > data_pages else named_by(addresses)


def heads_of(image: Image) -> Dict[int, Optional[Head]]:
    """Returns each head that isn't free: None where its page is no head of the image's version."""
    pages = {index: image.head_page(index) for index in range(image.heads)}
    return {index: head_in(page, image.data, image.version) for index, page in pages.items() if any(page)}


def map_of(image: Image, index: int) -> Optional[Dict[int, int]]:
    """Returns what a data page is as a map page, None where it is none."""
    return map_in(image.data_page(index), image.data)


def blocks_behind(place: int, entries: Dict[int, int]) -> Dict[int, int]:
    """Returns the data page of each block that is stored by a file's map page at this place."""
    return {HEAD_BLOCKS * (place + 1) + it: index for it, index in entries.items()}


def blocks_of(image: Image, head: Head) -> Dict[int, int]:
    """Returns the data page of each block that is stored, by the head or by one of its map pages. A page that is no map page has none."""
    blocks = dict(head.blocks)
    for place, index in head.maps.items():
        blocks.update(blocks_behind(place, map_of(image, index) or {}))
    return blocks


def files_of(image: Image) -> Dict[int, Dict[int, bytes]]:
    """Returns the files of an image: for each its blocks, without the zeros at their ends."""
    return {
        head.file: {block: image.data_page(index)[:BLOCK].rstrip(b"\0") for block, index in blocks_of(image, head).items()}
        for head in heads_of(image).values()
        if head
    }


def root_is_right(image: Image) -> bool:
    """Tells whether physical page 0 is a root with the version, the server and the counts of the image."""
    page = image.halves[0].data
    counts = b"".join(it.to_bytes(2, "big") for it in (image.pool, image.heads, image.data))
    return page[:12] == b"JUN1" + bytes([image.version, image.server]) + counts and not any(page[16:])


def least_twice(items) -> Optional[int]:
    """Returns the least item that stands twice in a list."""
    seen, twice = set(), set()
    for it in items:
        (twice if it in seen else seen).add(it)
    return min(twice, default=None)


def addresses_of(heads: List[Head], maps: Dict[int, Optional[Dict[int, int]]]) -> Iterator[int]:
    """Gives each address that is written in heads, and in map pages, each of which is read once."""
    for names in [it for head in heads for it in (head.blocks, head.maps)] + [it for it in maps.values() if it]:
        yield from (index + 1 for index in names.values())


def first_of(items) -> Optional[int]:
    return next(iter(items), None)


def fault_of(image: Image, server: Optional[int] = None) -> Optional[Tuple[int, Optional[int]]]:
    """Returns the first fault by which an image isn't that of a server that was closed: its number, and the place or the name told with it.

    Without a number of a server any will do.
    """
    if server is not None and image.server != server:
        return 1, None
    if not root_is_right(image):
        return 2, None
    heads = heads_of(image)
    whole = [it for it in heads.values() if it]
    maps = {index: map_of(image, index) for index in sorted({index for it in whole for index in it.maps.values()})}
    faults = (
        (3, first_of(at for at, half in enumerate(image.halves) if not half.is_good)),
        (4, first_of(at for at in range(image.count) if image.halves[at].data != image.halves[at + image.count].data)),
        (5, first_of(at for at in range(image.pool) if any(image.page(1 + at)))),
        (6, least_twice(it.file for it in whole)),
        (7, first_of(at for at, head in heads.items() if head is None)),
        (10, first_of(index for index, it in maps.items() if it is None)),
        (8, least_twice(addresses_of(whole, maps))),
        (9, first_of(at for at in range(image.data) if any(image.data_page(at)[BLOCK:]))),
    )
    return next((it for it in faults if it[1] is not None), None)


def fault_words(number: int, argument: Optional[int]) -> str:
    """Says what an unsound image's fault is."""
    what, behind = next(row[1:] for row in rows_of("unsound") if row[0] == str(number))
    return what if argument is None else f"{what}: {behind} {argument}"


def no_image_words(number: int) -> str:
    return next(what for it, what in rows_of("bad") if it == str(number))
