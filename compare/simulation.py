"""The Rust's resolution (resolve.rs) written a second time, with a switch for each way in which typebook leaves it.

With no switch put right it answers as the Rust does, over the stand-in server; with all of them as typebook does. A difference
between the two is explained by the switches that make the simulation answer as typebook did.
"""

from words import entries_of, laid, plain, shown, sought, words_of

# The switches. Each is the heading of docs/DIFFERENCES.md that tells of it.
LINKS = 'All missing links are asked for, and no row is dropped'
TYPARRAY = 'typarray alone tells an array'
TYPNAME = 'No bare typname is stored'
MALFORMED = 'After a malformed row nothing is kept'
NAMES = "No name is lost, and a named built-in type's row is not checked"
SQL = 'A name is never part of SQL text'
BYTES = 'Names are bytes'
LABEL_NULL = 'A label NULL is a label'
PARSED = 'The catalog takes names as bytes; PostgreSQL parses them'
AGAIN = 'A link that was asked for is not asked for again'
PRETTY = 'The pretty name of a named built-in type is not stored'
ROUND_65 = 'What was found before a 65th round is not kept'
SWITCHES = (LINKS, TYPARRAY, TYPNAME, MALFORMED, NAMES, SQL, BYTES, LABEL_NULL, PARSED, AGAIN, PRETTY, ROUND_65)
ALL = frozenset(SWITCHES)

TYPTYPES, CATEGORIES = b'bcdepr', b'ABCDEGINPRSTUVX'


class Failure(Exception):
    """An error of the Rust, by its kind."""

    def __init__(self, kind, malformed=False):
        super().__init__(kind)
        self.kind, self.malformed = kind, malformed


class Row:
    def __init__(self, oid, pretty, typtype, category, typelem, typbasetype, rngsubtype, typarray, labels, attributes):
        self.oid, self.pretty, self.typtype, self.category = oid, pretty, typtype, category
        self.typelem, self.typbasetype, self.rngsubtype, self.typarray = typelem, typbasetype, rngsubtype, typarray
        self.labels, self.attributes = labels, attributes

    def has_codes(self):
        return self.typtype in TYPTYPES and self.category in CATEGORIES

    def texts(self):
        return [self.pretty, *self.labels, *(name for name, _ in self.attributes)]


class Type:
    def __init__(self, oid, name, kind, texts=(), parts=()):
        self.oid, self.name, self.kind, self.texts, self.parts = oid, name, kind, texts, parts

    def head(self):
        line = f'{self.oid} {shown(self.name)} {self.kind}'
        return line + (f' of {self.parts[0].oid}' if self.kind in ('domain', 'array', 'range') else '')


def builtin_types(heads):
    """The built-in types, by their printed heads."""
    table, of = {}, {}
    for head in heads:
        words = head.split()
        table[int(words[0])] = Type(int(words[0]), words[1].encode(), words[2])
        if len(words) > 3:
            of[int(words[0])] = int(words[4])
    for oid, part in of.items():
        table[oid].parts = (table[part],)
    return table


def bare(pretty):
    """The last part of a qualified name, its quotes taken off; the whole where it is not written as one."""
    part, quoted, at = bytearray(), False, 0
    while at < len(pretty):
        b = pretty[at:at + 1]
        if b == b'"' and quoted and pretty[at + 1:at + 2] == b'"':
            part += b'"'
            at += 1
        elif b == b'"':
            quoted = not quoted
        elif b == b'.' and not quoted:
            part.clear()
        else:
            part += b
        at += 1
    return pretty if quoted or not part else bytes(part)


def is_text(names):
    try:
        for name in names:
            name.decode()
    except UnicodeDecodeError:
        return False
    return True


def escaped(text):
    """Rust's escape_default."""
    out = []
    for c in text:
        if c in '\t\r\n\'"\\':
            out.append('\\' + {'\t': 't', '\r': 'r', '\n': 'n'}.get(c, c))
        elif ' ' <= c <= '~':
            out.append(c)
        else:
            out.append('\\u{%x}' % ord(c))
    return ''.join(out)


class Lexer:
    """Reads the pairs of a VALUES list as PostgreSQL does, strings with escapes among them."""

    def __init__(self, text):
        self.text, self.at = text, 0

    def eat(self, word):
        found = self.text.startswith(word, self.at)
        if found:
            self.at += len(word)
        return found

    def expect(self, word):
        if not self.eat(word):
            raise Failure('other')

    def digits(self, most, base):
        digits = '0123456789abcdefABCDEF' if base == 16 else '01234567'
        start = self.at
        while self.at < min(len(self.text), start + most) and self.text[self.at] in digits:
            self.at += 1
        return (int(self.text[start:self.at], base) if self.at > start else 0), self.at - start

    def string(self):
        out, high, verify, text = bytearray(), None, False, self.text
        while True:
            if self.at >= len(text):
                raise Failure('other')
            c, following = text[self.at], text[self.at + 1:self.at + 2]
            self.at += 1
            if high is not None and not (c == '\\' and following in ('u', 'U')):
                raise Failure('other')
            if c == "'" and following == "'":
                self.at += 1
                out += b"'"
            elif c == "'":
                break
            elif c == '\0' or c == '\\' and not following:
                raise Failure('other')
            elif c != '\\':
                out += c.encode()
            elif following in '01234567':
                n = self.digits(3, 8)[0] & 255
                out.append(n)
                verify |= n == 0 or n >= 128
            else:
                self.at += 1
                if following in 'bfnrt':
                    out += {'b': b'\b', 'f': b'\f', 'n': b'\n', 'r': b'\r', 't': b'\t'}[following]
                elif following in 'uU':
                    n, got = self.digits(4 if following == 'u' else 8, 16)
                    if got < (4 if following == 'u' else 8):
                        raise Failure('other')
                    if high is not None:
                        if not 0xDC00 <= n <= 0xDFFF:
                            raise Failure('other')
                        n, high = 0x10000 + ((high - 0xD800) << 10) + (n - 0xDC00), None
                    elif 0xD800 <= n <= 0xDBFF:
                        high = n
                        continue
                    if n == 0 or n > 0x10FFFF or 0xD800 <= n <= 0xDFFF:
                        raise Failure('other')
                    out += chr(n).encode()
                else:
                    n, got = self.digits(2, 16) if following == 'x' else (0, 0)
                    if got:
                        out.append(n)
                        verify |= n == 0 or n >= 128
                    else:
                        out += following.encode()
        if verify and (0 in out or not is_text([out])):
            raise Failure('other')
        return bytes(out)

    def pair(self):
        self.expect("(E'")
        name = self.string()
        self.expect(", to_regtype(E'")
        text = self.string()
        self.expect(')')
        self.eat('::oid')
        self.expect(')')
        return name, text


class Simulation:
    def __init__(self, right, builtin, by_oid=False):
        self.right, self.builtin, self.by_oid = right, builtin, by_oid
        self.rows, self.names_of, self.columns_of, self.tables = {}, {}, {}, {}
        self.shelf, self.use_shelf = ({}, {}), False
        arrays = {ty.parts[0].oid: ty.oid for ty in builtin.values() if ty.kind == 'array'}
        for ty in builtin.values():
            of = ty.parts[0].oid if ty.parts else 0
            codes = {'range': (b'r', b'U'), 'pseudo': (b'p', b'U'), 'array': (b'b', b'A')}.get(ty.kind, (b'b', b'U'))
            self.shelf[0][ty.oid] = Row(ty.oid, ty.name, *codes, of if ty.kind == 'array' else 0, 0, of if ty.kind == 'range' else 0,
                                        arrays.get(ty.oid, 0), [], [])
            self.shelf[1][ty.name] = ty.oid
        self.new()

    def new(self):
        self.types, self.names, self.arrays, self.columns = {}, {}, {}, {}
        self.bound = None

    # the catalog in use

    def row(self, oid):
        return (self.shelf[0] if self.use_shelf else self.rows).get(oid)

    def to_regtype(self, name):
        names = self.shelf[1] if self.use_shelf else self.names_of
        if name in names:
            return names[name]
        if PARSED in self.right or not name.endswith(b'[]'):
            return None
        while name.endswith(b'[]'):
            name = name[:-2]
        return self.array_of(names.get(name))

    def array_of(self, oid):
        row = self.row(oid)
        return row.typarray or None if row else None

    # resolve.rs

    def known(self, oid):
        return self.builtin.get(oid) or self.types.get(oid)

    def decode(self, row):
        if not row.has_codes() or BYTES not in self.right and not is_text(row.texts()):
            raise Failure('other', True)
        if LABEL_NULL not in self.right and b'NULL' in row.labels:
            raise Failure('other', True)

    def typname(self, row):
        if row.oid in self.builtin:
            return self.builtin[row.oid].name
        return b'_' + bare(row.pretty[:-2]) if row.pretty.endswith(b'[]') else bare(row.pretty)

    def name_known(self, row, originals):
        """The names under which a type that is known already is held from now on."""
        if TYPNAME not in self.right:
            self.names[self.typname(row)] = row.oid
        if PRETTY not in self.right or row.oid not in self.builtin:
            self.names[row.pretty] = row.oid
        for name in originals:
            self.names[name] = row.oid

    def try_cache(self, row, originals):
        """Caches the row's type; the links that it lacks (the first of them, unless LINKS is put right), if there are any."""
        oid = row.oid
        if self.known(oid):
            self.name_known(row, originals)
            if TYPARRAY not in self.right and row.typelem:
                if not self.known(row.typelem):
                    return [row.typelem]
                self.arrays[row.typelem] = oid
            return []
        kind, links, texts = 'simple', [], ()
        if row.typtype == b'd':
            kind, links = 'domain', [row.typbasetype]
        elif row.typtype == b'b' and row.category == b'A':
            kind, links = 'array', [row.typelem]
        elif row.typtype == b'p':
            kind = 'pseudo'
        elif row.typtype == b'r':
            kind, links = 'range', [row.rngsubtype]
        elif row.typtype == b'e':
            kind, texts = 'enum', tuple(row.labels)
        elif row.typtype == b'c':
            kind, texts, links = 'composite', tuple(name for name, _ in row.attributes), [of for _, of in row.attributes]
        if kind in ('domain', 'array', 'range') and not links[0]:
            raise Failure('Protocol', True)
        missing = [link for link in links if not self.known(link)]
        if missing:
            return missing if LINKS in self.right else missing[:1]
        if kind == 'array' and TYPARRAY not in self.right:
            self.arrays[links[0]] = oid
        self.names.setdefault(row.pretty, oid)
        if TYPNAME not in self.right:
            self.names.setdefault(self.typname(row), oid)
        for name in originals:
            self.names.setdefault(name, oid)
        self.types[oid] = Type(oid, row.pretty, kind, texts, tuple(self.known(link) for link in links))
        return []

    def fill_cache(self, asked, elements=()):
        """asked: pairs (name or None, OID or None); elements: OIDs of which an array is declared."""
        before = dict(self.types), dict(self.names), dict(self.arrays)
        found_arrays = {}
        try:
            self.fill_rounds(asked, elements, found_arrays)
        except Failure as failure:
            self.number = '6' if failure.malformed else '4' if failure.kind == 'round 65' else '9'
            if failure.malformed and MALFORMED in self.right or failure.kind == 'round 65' and ROUND_65 in self.right:
                self.types, self.names, self.arrays = before
            else:
                self.arrays.update(found_arrays)
            raise Failure('Protocol') if failure.kind == 'round 65' else failure
        self.arrays.update(found_arrays)

    def fill_rounds(self, asked, elements, found_arrays):
        right = self.right
        waiting, missing, ever = [], {}, set()

        def ask(link):
            if AGAIN not in right or link not in ever and all(link != oid for _, oid in asked):
                asked.append((None, link))

        for _ in range(64):
            if not asked:
                break
            self.type_rounds += 1
            now, asked = asked, []
            originals, firsts = {}, set()
            for name, oid in now:
                if oid is None:
                    continue
                if oid not in originals:
                    originals[oid] = []
                    firsts.add((oid, name))
                if name is not None and (NAMES in right or (oid, name) in firsts):
                    originals[oid].append(name)
            ever.update(originals)
            for oid in sorted(originals) if self.by_oid else list(originals):
                row = self.row(oid)
                if row is None:
                    continue
                if NAMES in right and self.known(oid):
                    # it is read for its typarray at most
                    if oid in elements and oid not in self.arrays_before:
                        if not row.has_codes():
                            raise Failure('other', True)
                    elif TYPARRAY in right:
                        self.name_known(row, originals[oid])
                        continue
                else:
                    self.decode(row)
                if TYPARRAY in right and row.typarray and (oid not in self.builtin or oid in elements):
                    found_arrays[oid] = row.typarray
                current = row, originals[oid]
                if LINKS in right:
                    lacks = self.try_cache(*current)
                    if lacks:
                        waiting.append(current)
                    for link in lacks:
                        ask(link)
                    again = not lacks
                    while again:
                        again = False
                        for entry in list(waiting):
                            if not self.try_cache(*entry):
                                waiting.remove(entry)
                                again = True
                    continue
                resolved = []
                while True:
                    lacks = self.try_cache(*current)
                    if lacks:
                        # what was resolved and not tried yet is dropped here
                        missing.setdefault(lacks[0], []).append(current)
                        ask(lacks[0])
                        break
                    resolved += missing.pop(current[0].oid, [])
                    if not resolved:
                        break
                    current = resolved.pop()
        if missing or waiting:
            raise Failure('round 65' if asked else 'Protocol')

    def oid_of(self, entry):
        kind, value = entry
        if kind == 'oid':
            return value
        oid = self.names.get(value)
        if kind == 'array':
            oid = self.arrays.get(oid)
            if TYPARRAY in self.right and oid is not None and not self.known(oid):
                return None
        return oid

    def pairs_by_sql(self, entries):
        """What the server reads of the names that the Rust writes into its SQL."""
        sql = []
        for kind, value in entries:
            try:
                text = value.decode()
            except UnicodeDecodeError:
                raise Failure('other')
            if kind == 'array':
                sql.append(f"(E'{text}', to_regtype(E'{text}'))")
                text += '[]'
            sql.append(f"(E'{escaped(text)}', to_regtype(E'{escaped(text)}')::oid)")
        self.type_rounds += 1
        lexer, pairs = Lexer(', '.join(sql)), []
        while True:
            name, text = lexer.pair()
            pairs.append((name, text))
            if not lexer.eat(', '):
                break
        if lexer.at != len(lexer.text):
            raise Failure('other')
        self.type_rounds -= 1
        return pairs

    def resolve(self, entries):
        self.arrays_before = set(self.arrays)
        oids = []
        for entry in entries:
            # those before the first that is not known are not looked up again
            if self.oid_of(entry) is None:
                break
            oids.append(self.oid_of(entry))
        unresolved = [entry for entry in entries if self.oid_of(entry) is None]
        if unresolved:
            if SQL in self.right:
                texts = [(text, text) for kind, value in unresolved for text in ([value, value + b'[]'] if kind == 'array' else [value])]
            else:
                texts = self.pairs_by_sql(unresolved)
            pairs = [(name, self.to_regtype(text)) for name, text in texts]
            elements = set()
            if TYPARRAY in self.right:
                # the array of an element is its typarray and nothing else
                out, at = [], 0
                for kind, _ in unresolved:
                    out.append(pairs[at])
                    if kind == 'array':
                        element = pairs[at][1]
                        if element is not None:
                            elements.add(element)
                        out.append((None, self.array_of(element)))
                        at += 1
                    at += 1
                pairs = out
            self.fill_cache(pairs, elements)
        for entry in entries[len(oids):]:
            oid = self.oid_of(entry)
            if oid is None:
                self.number = '10'
                raise Failure('TypeNotFound ' + sought(entry))
            oids.append(oid)
        return oids

    def fill(self, oids):
        self.arrays_before = set(self.arrays)
        asked = [(None, oid) for oid in oids if not self.known(oid)]
        if asked:
            self.fill_cache(asked)

    def find_columns(self, fields):
        wanted = [(relation, attribute) for _, _, relation, attribute in fields if relation and attribute]
        if all(column in self.columns for column in wanted):
            return
        self.column_rounds += 1
        found = {}
        for column in wanted:
            if column in self.columns_of and column not in self.columns and not self.use_shelf:
                found.setdefault(column[0], []).append(column)
        for relation, columns in found.items():
            if BYTES not in self.right and not is_text([self.tables[relation], *(self.columns_of[c] for c in columns)]):
                raise Failure('other')
            self.columns.update({column: (self.tables[relation], self.columns_of[column]) for column in columns})

    def bind(self, queries, origins, parameters, fields):
        if queries:
            self.fill(parameters + [oid for _, oid, _, _ in fields])
            if origins:
                self.find_columns(fields)

        def typed(oid):
            ty = self.known(oid)
            return f'settled {oid} {shown(ty.name)}' if ty else f'declared {oid}'
        out = [f'  parameter {at} {typed(oid)}' for at, oid in enumerate(parameters)]
        for at, (name, oid, relation, attribute) in enumerate(fields):
            origin = 'expression'
            if relation and attribute:
                column = self.columns.get((relation, attribute))
                origin = f'table {shown(column[0])} {shown(column[1])}' if column else 'unknown'
            out.append(f'  column {at} {shown(name)} {typed(oid)} {origin} relation {relation} attribute {attribute}')
        return out

    # the lines of a script

    def answer(self, line):
        """The answer as the Rust prints it; .number is the refusal that it would be here."""
        words = words_of(line)
        verb, words = words[0].decode('latin-1'), words[1:]
        self.type_rounds = self.column_rounds = 0
        self.number = None
        try:
            return getattr(self, 'do_' + verb.replace('-', '_'))(words)
        except Failure as failure:
            return [f'{verb}: refused {failure.kind} rounds {self.type_rounds + self.column_rounds}']

    def do_book(self, words):
        self.new()
        return ['book: new connection']

    def do_use(self, words):
        self.use_shelf = words[0] == b'shelf'
        return ['use: ' + words[0].decode()]

    def do_allowance(self, words):
        return ['allowance: ignored']

    def do_row(self, words):
        rest, labels = words[8:], []
        if rest[:1] == [b'labels']:
            end = rest.index(b'attributes') if b'attributes' in rest else len(rest)
            labels, rest = rest[1:end], rest[end:]
        attributes = list(zip(rest[1::2], rest[2::2]))
        _, names = laid([words[1], *labels, *(name for name, _ in attributes)])
        oid = int(words[0])
        row = Row(oid, names[0], plain(words[2]), plain(words[3]), *(int(word) for word in words[4:8]),
                  names[1:1 + len(labels)], [(name, int(of)) for name, (_, of) in zip(names[1 + len(labels):], attributes)])
        self.rows.setdefault(oid, row)
        self.names_of[names[0]] = oid
        return ['row: ok']

    def do_name(self, words):
        self.names_of[laid(words[:1])[1][0]] = int(words[1])
        return ['name: ok']

    def do_column(self, words):
        _, (table, column) = laid(words[2:])
        self.tables[int(words[0])] = table
        self.columns_of[int(words[0]), int(words[1])] = column
        return ['column: ok']

    def do_fill(self, words):
        self.fill([int(word) for word in words])
        return [f'fill: ok rounds {self.type_rounds}']

    def do_resolve(self, words):
        entries = entries_of(words)
        if BYTES not in self.right and not is_text(value for kind, value in entries if kind != 'oid'):
            return ['resolve: not expressible: a name is not UTF-8']
        oids = self.resolve(entries)
        return [f'resolve: ok rounds {self.type_rounds} oids' + ''.join(f' {oid}' for oid in oids)]

    def do_bind(self, words):
        queries, origins = words[0] == b'queries=yes', words[1] == b'origins=yes'
        words = words[words.index(b'parameters') + 1:]
        end = words.index(b'fields')
        parameters, words = [int(word) for word in words[:end]], words[end + 1:]
        host, names = laid(words[::4])
        fields = [(name, *(int(n) for n in numbers)) for name, *numbers in zip(names, words[1::4], words[2::4], words[3::4])]
        if BYTES not in self.right and not is_text(names):
            return ['bind: not expressible: a name is not UTF-8']
        out = self.bind(queries, origins, parameters, fields)
        self.bound = host, names
        return [f'bind: ok rounds {self.type_rounds} {self.column_rounds}'] + out

    def do_describe(self, words):
        ty = self.known(int(words[0]))
        if ty is None:
            return ['describe: nothing']
        out, seen = [], set()

        def tree(ty, depth):
            line = '  ' * depth + ty.head()
            if ty.oid in self.builtin:
                out.append(line)
            elif ty.oid in seen and ty.kind not in ('simple', 'pseudo'):
                out.append(line + ' (above)')
            else:
                seen.add(ty.oid)
                out.append(line)
                if ty.kind == 'composite':
                    for name, part in zip(ty.texts, ty.parts):
                        out.append('  ' * depth + '  attribute ' + shown(name))
                        tree(part, depth + 2)
                else:
                    out.extend('  ' * depth + '  label ' + shown(text) for text in ty.texts)
                    for part in ty.parts:
                        tree(part, depth + 1)
        tree(ty, 0)
        return ['describe: ' + out[0]] + out[1:]

    def do_ordinal(self, words):
        if self.bound is None:
            return ['ordinal: nothing']
        host, names = self.bound
        name = plain(words[0])
        if words[0].startswith(b'@'):
            start, length = (int(n) for n in words[0][1:].split(b'+'))
            if start + length > len(host):
                return ['ordinal: nothing']
            name = host[start:start + length]
        at = [at for at, field in enumerate(names) if field == name]
        return [f'ordinal: {at[-1]}' if at else 'ordinal: nothing']

    def do_element(self, words):
        kind, _, value = words[0].partition(b':')
        name = plain(value)
        if kind == b'oid':
            return ['element: nothing']
        if BYTES not in self.right and not is_text([name]):
            return ['element: not expressible: not UTF-8']
        if kind == b'name' and not name.startswith(b'_'):
            return ['element: nothing']
        return ['element: name ' + shown(name if kind == b'array' else name[1:])]

    def do_element_of(self, words):
        ty = self.known(int(words[0]))
        return ['element-of: ' + (ty.parts[0].head() if ty and ty.kind == 'array' else 'nothing')]

    def do_builtin(self, words):
        ty = self.builtin.get(int(words[0]))
        return ['builtin: ' + (ty.head() if ty else 'nothing')]

    def do_builtin_name(self, words):
        found = [ty for ty in self.builtin.values() if ty.name == plain(words[0])]
        return ['builtin: ' + (found[0].head() if found else 'nothing')]
