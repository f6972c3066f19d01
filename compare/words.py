"""The words of a script, and what typebook and the Rust print for its lines (docs/SCRIPT.md)."""


def words_of(line):
    return [word for word in line.split(b' ') if word]


def plain(word):
    """The bytes of a name that is written as this word."""
    if word == b'%-':
        return b''
    out, at = bytearray(), 0
    while at < len(word):
        if word[at] == 0x25:
            out.append(int(word[at + 1:at + 3], 16))
            at += 3
        else:
            out.append(word[at])
            at += 1
    return bytes(out)


def written(name):
    """The word that a name of these bytes is written as."""
    if not name:
        return b'%-'
    return b''.join(b'%%%02X' % b if b == 0x25 or not 0x21 <= b <= 0x7e or (at == 0 and b == 0x40) else bytes([b])
                    for at, b in enumerate(name))


def shown(name):
    return written(name).decode()


def laid(words):
    """The host text of a line with these names, and the bytes of each; None where a span lies outside."""
    host = b''.join(plain(word) for word in words if not word.startswith(b'@'))
    names = []
    for word in words:
        if word.startswith(b'@'):
            start, length = (int(n) for n in word[1:].split(b'+'))
            names.append(host[start:start + length] if start + length <= len(host) else None)
        else:
            names.append(plain(word))
    return host, names


def entries_of(words):
    """The entries of a resolve: 'oid', 'name' or 'array', and the OID or the name's bytes."""
    words = [word for word in words if not word.startswith(b'out=')]
    kinds = [word.partition(b':')[0].decode() for word in words]
    values = [word.partition(b':')[2] for word in words]
    _, names = laid([b'%-' if kind == 'oid' else value for kind, value in zip(kinds, values)])
    return [(kind, int(value) if kind == 'oid' else name) for kind, value, name in zip(kinds, values, names)]


def sought(entry):
    """What the Rust calls an entry that it does not find."""
    kind, value = entry
    return shown(value + (b'[]' if kind == 'array' else b'')) if kind != 'oid' and value is not None else None


def blocks(printed):
    """What a run printed: for each line of the script the line, and the lines of its answer."""
    out = []
    for line in printed.split(b'\n'):
        if line.startswith(b'> '):
            out.append((line[2:], []))
        elif out and line:
            out[-1][1].append(line.decode('latin-1'))
    if out and out[-1][1][-1].endswith(' not understood') and ' lines, ' in out[-1][1][-1]:
        out[-1][1].pop()
    return out


class Answer:
    """An answer, taken apart: .text without rounds and allowance; .rounds; of a refusal .number (for the Rust the kind of its
    error), .place and .layer (for the Rust what it did not find)."""

    def __init__(self, verb, lines):
        words = lines[0].split()
        self.lines, self.text = lines, '\n'.join(lines)
        self.number = self.rounds = self.place = self.layer = None
        self.askable = 'not expressible' not in lines[0]
        if words[1:2] == ['refused']:
            self.number = words[2]
            if 'place' in words:
                self.place, self.layer = int(words[4]), words[6]
            elif self.number == 'TypeNotFound':
                self.place = words[3]
            if 'rounds' in words:
                self.rounds = int(words[words.index('rounds') + 1])
        elif words[1:2] == ['ok'] and 'rounds' in words:
            counts = 2 if verb == 'bind' else 1
            self.rounds = sum(int(n) for n in words[3:3 + counts])
            rest = words[3 + counts:]
            if rest[:1] == ['allowance']:
                rest = rest[2:]
            self.text = '\n'.join([' '.join(words[:2] + rest)] + lines[1:])
