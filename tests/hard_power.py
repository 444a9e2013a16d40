"""A simulated file system over several processes: what a power loss may leave of files and names.

`hard_recorder.c` records the calls of real processes on real files; a `World` replays them. The real files are the page cache, which
every process reads. The device is simulated, by these rules:

- A block that was written since the last successful sync of its file is old, new, or torn (half of each), independently of all others.
- A file that grows has any length in between; a file that is truncated has its old or its new length.
- A sync that fails drops the blocks written before it: the kernel takes them for clean, so no later sync brings them. Only writing
  them again does. The same holds for a length, until the next write or truncation.
- A write that fails changes nothing in the cache; the device may have it, and no later sync decides that.
- Names that were changed since the last sync of their folder are as they were after some of these changes, in order. A sync of a
  folder that fails brings nothing, and a later one brings all.

A file that is overwritten with what the device surely holds stays sure.
"""
import os
import random
import stat

BLOCK = 512
ZEROS = bytes(BLOCK)


class File:
    """A file: what the cache shows, and for each block and for the length what the device may hold, oldest first."""

    def __init__(self, content=b""):
        self.cache = bytearray(content)
        self.unsure = {}
        self.dropped = set()
        self.lengths = [self.blocks()]
        self.length_dropped = False

    def blocks(self):
        return -(-len(self.cache) // BLOCK)

    def block(self, k):
        return bytes(self.cache[k * BLOCK : (k + 1) * BLOCK]).ljust(BLOCK, b"\0")

    def write(self, at, content):
        end, length = at + len(content), self.blocks()
        places = range(at // BLOCK, -(-end // BLOCK))
        self.length_dropped = False
        if self.cache[at:end] == content and self.unsure.keys().isdisjoint(places):
            return
        before = [self.block(k) for k in places]
        self.cache.extend(bytes(max(0, end - len(self.cache))))
        self.cache[at:end] = content
        for k, old in zip(places, before):
            self.change(k, old, self.block(k))
        self.lengths.extend(range(length + 1, self.blocks() + 1))

    def change(self, k, old, new):
        """Block k of the cache changed. Even when it didn't, a dropped block is dirty again."""
        self.dropped.discard(k)
        versions = self.unsure.get(k, [old])
        if versions[-1] != new:
            self.unsure[k] = [*versions, new]

    def write_failed(self, at, content):
        for i in range(0, len(content), BLOCK):
            k, piece = (at + i) // BLOCK, bytes(content[i : i + BLOCK])
            self.unsure[k] = [*self.unsure.get(k, [self.block(k)]), piece + self.block(k)[len(piece) :]]
            self.dropped.add(k)
            if k >= self.blocks():
                self.lengths.append(k + 1)
                self.length_dropped = True

    def truncate(self, length):
        old, new = self.blocks(), -(-length // BLOCK)
        self.length_dropped = False
        if new < old:
            for k in range(new, old):
                self.unsure.setdefault(k, [self.block(k)])
            del self.cache[length:]
            self.lengths.append(new)
            return
        self.cache.extend(bytes(length - len(self.cache)))
        for k in range(old, new):
            if k in self.unsure:
                self.change(k, ZEROS, ZEROS)
        self.lengths.extend(range(old + 1, new + 1))

    def sync(self):
        self.unsure = {k: it for k, it in self.unsure.items() if k in self.dropped}
        if not self.length_dropped:
            self.lengths = [self.blocks()]
            self.unsure = {k: it for k, it in self.unsure.items() if k < self.blocks()}
        self.dropped &= self.unsure.keys()

    def sync_failed(self):
        self.dropped = set(self.unsure)
        self.length_dropped = len(self.lengths) > 1

    def is_sure(self):
        return not self.unsure and len(self.lengths) == 1

    def left(self, choose):
        """What a power loss leaves, by a choice among the possibilities."""
        length = choose(self, "length", self.lengths)
        content = bytearray(self.cache[: length * BLOCK]).ljust(length * BLOCK, b"\0")
        for k, versions in self.unsure.items():
            if k < length:
                content[k * BLOCK : (k + 1) * BLOCK] = choose(self, k, versions)
        return bytes(content)


class Directory:
    """A folder: what its names are for, after each change since its last sync."""

    def __init__(self, names=()):
        self.states = [dict(names)]

    def names(self):
        return self.states[-1]

    def change(self, removed, name=None, node=None):
        names = {key: it for key, it in self.names().items() if key != removed}
        if name:
            names[name] = node
        self.states.append(names)

    def sync(self):
        self.states = self.states[-1:]

    def sync_failed(self):
        """Nothing is brought."""


class World:
    """The files and folders below one folder."""

    def __init__(self, path):
        """As they are there now, all on the device."""
        self.nodes = {}
        self.root = self.read(path)

    def read(self, path):
        about = os.stat(path)
        if stat.S_ISDIR(about.st_mode):
            node = Directory((name, self.read(os.path.join(path, name))) for name in sorted(os.listdir(path)))
        else:
            with open(path, "rb") as it:
                node = File(it.read())
        self.nodes[about.st_ino] = node
        return node

    def place(self, path):
        """The folder of a path, and the name in it."""
        folder = self.root
        *above, name = path.split("/")
        for it in above:
            folder = folder.names()[it]
        return folder, name

    def file(self, path):
        """The file that the cache shows at a path, or None."""
        node = self.root
        for it in path.split("/"):
            node = node.names().get(it) if isinstance(node, Directory) else None
        return node

    def path_of(self, ino):
        """The path under which the cache shows a file or folder of this number, or None."""

        def search(folder, above):
            for name, node in folder.names().items():
                if node is self.nodes.get(ino):
                    return above + name
                found = search(node, f"{above}{name}/") if isinstance(node, Directory) else None
                if found:
                    return found
            return None

        return "." if self.nodes.get(ino) is self.root else search(self.root, "")

    def apply(self, record):
        """Does what was recorded."""
        what, ino, at, content = record
        if what in "WwCcSs":
            node = self.nodes[ino]
            if what == "W":
                node.write(at, content)
            elif what == "w":
                node.write_failed(at, content)
            elif what == "C":
                node.truncate(at)
            elif what == "S":
                node.sync()
            elif what == "s":
                node.sync_failed()
        elif what in "NDRLU":
            self.rename(what, ino, *content.decode().split("\n"))

    def rename(self, what, ino, path, to=None):
        folder, name = self.place(path)
        if what in "ND":
            self.nodes[ino] = File() if what == "N" else Directory()
            folder.change(None, name, self.nodes[ino])
        elif what == "U":
            folder.change(name)
        else:
            node, (target, new) = folder.names()[name], self.place(to)
            if target is folder and what == "R":
                folder.change(name, new, node)
            else:
                target.change(None, new, node)
                if what == "R":
                    folder.change(name)

    def unsure_blocks(self):
        """Each block, length and folder of which the device may hold something else: the node and what of it."""
        for node in {id(it): it for it in self.nodes.values()}.values():
            if isinstance(node, Directory):
                if len(node.states) > 1:
                    yield node, "names"
                continue
            if len(node.lengths) > 1:
                yield node, "length"
            for k in node.unsure:
                yield node, k

    def shown(self):
        """What the cache shows, as `left` returns it."""
        return self.left(newest, lambda it: bytes(it.cache))

    def left(self, choose, of=None):
        """What a power loss leaves: each path with the bytes of a file, or None for a folder."""
        seen = {}

        def walk(folder, above):
            for name, node in choose(folder, "names", folder.states).items():
                seen[above + name] = None if isinstance(node, Directory) else of(node) if of else node.left(choose)
                if isinstance(node, Directory):
                    walk(node, f"{above}{name}/")

        walk(self.root, "")
        return seen


# ---- choices among what the device may hold


def newest(node, what, versions):
    return versions[-1]


def oldest(node, what, versions):
    return versions[0]


def one_lost(lost, of):
    """The newest of all, but the oldest of one block, length or folder."""
    return lambda node, what, versions: versions[0 if node is lost and what == of else -1]


def one_kept(kept, of):
    """The oldest of all blocks, but the newest of one; lengths and names are the newest."""
    return lambda node, what, versions: versions[-1 if node is kept and what == of or what in ("length", "names") else 0]


def file_lost(lost):
    """The newest of all, but the oldest of one file."""
    return lambda node, what, versions: versions[0 if node is lost else -1]


def at_random(seed):
    some = random.Random(seed)
    share = some.choice((0.1, 0.5, 0.9))

    def choose(node, what, versions):
        if some.random() < share:
            return versions[-1]
        if isinstance(what, int) and some.random() < 0.3:
            older = some.randrange(len(versions))
            return versions[older][: BLOCK // 2] + versions[-1][BLOCK // 2 :]
        return some.choice(versions)

    return choose


def outcomes(world, some, most, only=None):
    """The names and choices of some outcomes: all kept, none kept, and this many others, extremes or at random. Or the one of a name."""
    unsure = list(world.unsure_blocks())
    nodes = list({id(node): node for node, _ in unsure}.values())
    single = {f"file {nodes.index(node)} {what} lost": one_lost(node, what) for node, what in unsure}
    single.update({f"file {nodes.index(node)} {what} kept": one_kept(node, what) for node, what in unsure if isinstance(what, int)})
    if len(nodes) > 1:
        single.update({f"file {i} lost": file_lost(node) for i, node in enumerate(nodes)})
    known = {"all kept": newest, "none kept": oldest, **single}
    if only:
        yield only, known[only] if only in known else at_random(int(only.split()[1]))
        return
    yield "all kept", newest
    if not unsure:
        return
    yield "none kept", oldest
    for name in some.sample(sorted(single), min(len(single), -(-most // 2))):
        yield name, single[name]
    for _ in range(most // 2):
        seed = some.randrange(10**6)
        yield f"seed {seed}", at_random(seed)


# ---- what was recorded


def records_of(path):
    """The recorded calls: what was done, the file's number, where, and the bytes."""
    try:
        with open(path, "rb") as it:
            noted = it.read()
    except FileNotFoundError:
        return []
    records, at = [], 0
    while at < len(noted):
        end = noted.index(b"\n", at)
        what, ino, place, count = noted[at:end].split()
        at = end + 1 + int(count)
        records.append((what.decode(), int(ino), int(place), noted[end + 1 : at]))
    return records
