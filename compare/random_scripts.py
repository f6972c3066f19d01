"""Scripts at random: a small catalog that now and then is odd, and steps and questions on it."""

from words import written

ODD_NAMES = [b'a', b'b', b'lab.a', b'lab."B"', b'c d', b'_a', b'a[]', b'x.y.z', b'"q""t"', b"o'k", b'b\\s', b'\xc3\x9f', b'\xff', b'NULL',
             b'\tt', b'@home', b'100%', b'\\x41', b'\\u0041', b"E''", b"x'), (E'a', to_regtype(E'a", b'\xf0\x9f\x96\xa8', b'Int4']
LABELS = [b'x', b'y', b'z z', b'NULL', b'null', b'q"', b'b\\', b'{}', b'%', b',', b'\xc3\xb8', b'\xfe', b'labels']
ATTRIBUTES = [b'f', b'g', b'h,i', b'(j)', b'k"', b'l\\', b'm n', b'\xc3\xb8', b'NULL', b'attributes']
# built-in types that stand in the catalog too: name, category, typelem, typarray
BUILTIN = {21: (b'int2', b'N', 0, 1005), 23: (b'int4', b'N', 0, 1007), 25: (b'text', b'S', 0, 1009), 701: (b'float8', b'N', 0, 1022),
           600: (b'point', b'G', 701, 1017), 1005: (b'int2[]', b'A', 21, 0), 1007: (b'int4[]', b'A', 23, 0), 1009: (b'text[]', b'A', 25, 0),
           1022: (b'float8[]', b'A', 701, 0), 705: (b'unknown', b'X', 0, 0), 2249: (b'record', b'P', 0, 2287)}
ABSENT = 59999


class Writer:
    def __init__(self, random):
        self.r, self.lines, self.names = random, [], [b'nosuch', b'a', b'B', b'B"', b'nosuch[]']

    def put(self, *words):
        self.lines.append(b' '.join(b'%d' % word if isinstance(word, int) else word for word in words))

    def chance(self, of):
        return self.r.random() < of

    # the catalog

    def row(self, oid, pretty, typtype, category, typelem=0, typbasetype=0, rngsubtype=0, typarray=0, *rest):
        self.names.append(pretty)
        self.put(b'row', oid, written(pretty), typtype, category, typelem, typbasetype, rngsubtype, typarray, *rest)

    def custom(self, oid, pretty, links, odd):
        r = self.r
        kind = r.choice('ddaaaeccccrbp')
        if odd and self.chance(.15):
            kind = r.choice('mxZ')
        typtype = {'a': 'b'}.get(kind, kind).encode()
        category = {'a': b'A', 'e': b'E', 'c': b'C', 'r': b'R', 'p': b'P'}.get(kind, r.choice([b'U', b'U', b'S', b'N', b'T']))
        if odd and self.chance(.1):
            category = r.choice([b'q', b'Z', b'A', b'%00', b'%FF'])
        link = r.choice(links)
        typelem = link if kind == 'a' else r.choice(links) if self.chance(.12) else 0
        if odd and self.chance(.1):
            link = typelem = 0
        rest = []
        if kind == 'e':
            rest = [b'labels', *(written(label) for label in r.sample(LABELS, r.randrange(4)))]
        if kind == 'c':
            rest = [b'attributes']
            for name in r.sample(ATTRIBUTES, r.randrange(5)):
                rest += [b'%61ttributes' if name == b'attributes' else written(name), r.choice(links)]
        self.row(oid, pretty, typtype, category, typelem, link if kind == 'd' else 0, link if kind == 'r' else 0,
                 r.choice(links) if self.chance(.5) else 0, *rest)

    def catalog(self, pool):
        """Rows of the pool's OIDs, of built-in ones, further names, columns; what is held back for later."""
        r = self.r
        tidy = self.chance(.6)
        odd = self.chance(.08 if tidy else .25)
        free = list(ODD_NAMES) if self.chance(.4) else [b'n%d' % n for n in range(20)]
        r.shuffle(free)
        for oid in pool:
            if self.chance(.02 if tidy else .12):
                continue
            above = [other for other in pool if other > oid] if tidy else pool
            links = above * 3 + [23, 25, 21] + ([ABSENT] if self.chance(.03) else [])
            self.custom(oid, free.pop() if free else b't%d' % oid, links, odd)
        for oid in r.sample(list(BUILTIN), 5):
            name, category, typelem, typarray = BUILTIN[oid]
            self.row(oid, name, b'p' if oid == 2249 else b'b', b'Z' if odd and self.chance(.2) else category, typelem, 0, 0, typarray)
        for oid in pool + list(BUILTIN):
            if self.chance(.35):
                name = free.pop() if free and self.chance(.5) else b'other%d' % oid
                self.names.append(name)
                self.put(b'name', written(name), oid)
        for _ in range(r.randrange(5)):
            relation = r.choice([7, 8])
            self.put(b'column', relation, r.choice([1, 2, -1]), b'lab.t%d' % relation,
                     r.choices([b'p', b'q', b'%C3%9F', b'"r%20s"', b'%FF'], [9, 9, 3, 3, 1])[0])
        if self.chance(.04):
            self.chain(pool)
        if self.chance(.04):
            self.wide(pool)
        return [self.lines.pop(r.randrange(len(self.lines))) for _ in range(r.randrange(3)) if len(self.lines) > 3]

    def chain(self, pool):
        """Domains that each lead to the next, about as many as there may be rounds."""
        length = self.r.choice([5, 30, 63, 64, 65, 66])
        for n in range(length):
            self.row(60000 + n, b'd%d' % n, b'd', b'S', 0, 60001 + n if n + 1 < length else 23)
        pool.append(60000)

    def wide(self, pool):
        """A composite of many types, all of one round."""
        width = self.r.choice([3, 10, 62, 64])
        for n in range(width):
            self.row(61001 + n, b'w%d' % n, b'e', b'E', 0, 0, 0, 0, b'labels', b'x')
        self.row(61000, b'wide', b'c', b'C', 0, 0, 0, 0, b'attributes', *(word for n in range(width) for word in (b'a%d' % n, 61001 + n)))
        pool.append(61000)

    # steps and questions

    def name(self, kind):
        if self.chance(.01):
            return kind + b'@%d+%d' % (self.r.randrange(3), self.r.randrange(3))
        if self.chance(.01):
            return kind + self.r.choice([b'%-', b'x' * 129, b'x' * 128])
        return kind + written(self.r.choice(self.names))

    def fill(self, pool):
        self.put(b'fill', *(self.r.choice(pool + [23, ABSENT]) for _ in range(self.r.randrange(5))))

    def resolve(self, pool):
        entries = [b'out=%d' % self.r.randrange(4)] if self.chance(.02) else []
        for _ in range(self.r.randrange(1, 5)):
            kind = self.r.choices([b'oid:', b'name:', b'array:'], [1, 5, 4])[0]
            entries.append(b'oid:%d' % self.r.choice(pool) if kind == b'oid:' else self.name(kind))
        self.put(b'resolve', *entries)

    def bind(self, pool):
        r = self.r
        words = [b'queries=' + r.choice([b'yes', b'yes', b'no']), b'origins=' + r.choice([b'yes', b'no'])]
        if self.chance(.02):
            words.append(b'columns=%d' % r.randrange(4))
        words += [b'parameters', *(r.choice(pool + [23]) for _ in range(r.randrange(3))), b'fields']
        for _ in range(r.randrange(4)):
            words += [r.choices([b'w', b'h', b'%-', b'%FF'], [50, 50, 5, 1])[0], r.choice(pool + [25]), r.choice([0, 7, 8]), r.choice([0, 1, 2, -1])]
        self.put(b'bind', *words)
        self.put(b'ordinal', r.choice([b'w', b'h', b'%-', b'z', b'@0+1']))

    def turn(self):
        """What happens between steps, now and then."""
        r = self.r
        if self.chance(.06):
            self.put(b'book', *(table + b'=%d' % r.randrange(12) for table in r.sample([b'descriptors', b'parts', b'names', b'arrays'], 1))
                     if self.chance(.3) else ())
        if self.chance(.04):
            self.put(b'allowance', r.randrange(3))
        elif self.chance(.1):
            self.put(b'allowance', 100000)
        if self.chance(.03):
            self.put(b'use', r.choice([b'shelf', b'rows', b'rows']))
            if self.chance(.7):
                self.put(b'book')

    def questions(self, pool):
        for oid in self.r.sample(pool, 2):
            self.put(b'describe', oid)
            if self.chance(.3):
                self.put(b'element-of', oid)
        if self.chance(.1):
            self.put(b'element', self.r.choice([b'name:', b'array:']) + written(self.r.choice(self.names)))
            self.put(b'builtin-name', self.r.choice([b'int4', b'_int4', b'INT4', b'nosuch', b'_']))


def random_script(random):
    writer = Writer(random)
    pool = list(range(50001, 50001 + random.choice([4, 6, 9])))
    late = writer.catalog(pool)
    writer.lines.insert(0, b'allowance 100000')
    for _ in range(random.choice([2, 4, 8])):
        if late and writer.chance(.3):
            writer.lines.append(late.pop())
        writer.turn()
        random.choices([writer.fill, writer.resolve, writer.bind], [4, 9, 5])[0](pool)
        writer.questions(pool)
    for oid in pool:
        writer.put(b'describe', oid)
    return b'\n'.join(writer.lines) + b'\n'
