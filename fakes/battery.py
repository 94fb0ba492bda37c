"""Fakes as texts: read, applied to a copy of the crates (fakes/README.md has the form)."""
from pathlib import Path

ROOT = Path(__file__).resolve().parent.parent
FAKES = ROOT / 'fakes'


class Bad(Exception):
    """A fake that is not as it should be."""


class Fake:
    """One file NAME.fake: what it says of itself, and the texts that it replaces."""

    def __init__(self, path):
        self.name = path.stem
        self.says = {'van': '', 'forbidden': '', 'false': ''}
        self.proves, self.refuses, self.pairs = [], [], []
        self.unnoticed, self.needed, self.witness, self.proof = '', '', '', []
        self.read(path.read_text(encoding='utf-8').splitlines())

    def read(self, lines):
        heading = None
        file, old, new = None, None, None
        for line in lines + ['end:']:
            word, _, rest = line.partition(':')
            rest = rest.removeprefix(' ')
            if old is not None and new is not None and word != 'new':
                self.pairs.append((file, '\n'.join(old), '\n'.join(new)))
                old, new = None, None
            if line.startswith('#'):
                heading = self.comment(line, heading)
            elif word == 'proves':
                self.proves += rest.split()
            elif word == 'refuses':
                self.refuses.append(rest)
            elif word in ('unnoticed', 'needed', 'witness'):
                setattr(self, word, rest)
            elif word == 'proof':
                self.proof.append(rest)
            elif word == 'file':
                file = rest
            elif word == 'old':
                old = (old or []) + [rest]
            elif word == 'new':
                if old is None:
                    raise Bad(f"{self.name}: a 'new:' line without 'old:' before it")
                new = (new or []) + [rest]
            elif line.strip() and word != 'end':
                raise Bad(f'{self.name}: a line of no known kind: {line}')
        if not self.pairs:
            raise Bad(f"{self.name}: no 'old:' and 'new:' pair")
        if not all(self.says.values()):
            raise Bad(f'{self.name}: it does not say all of: ' + ', '.join(self.says))
        if not (self.refuses or self.unnoticed):
            raise Bad(f'{self.name}: no statement that refuses it')

    def comment(self, line, heading):
        text = line[1:].strip()
        word, _, rest = text.partition(': ')
        if word in self.says and not self.says[word]:
            heading = word
            self.says[word] = rest
        elif heading is None:
            raise Bad(f'{self.name}: a comment before the first of: ' + ', '.join(self.says))
        else:
            self.says[heading] += ' ' + text
        return heading

    def files(self):
        return sorted({file for file, _, _ in self.pairs})

    def apply(self, root):
        """Replaces each old text, which must stand in its file just once."""
        texts = {}
        for file, old, new in self.pairs:
            path = root / 'crates' / file
            if not path.is_file():
                raise Bad(f'{self.name}: no file {file}')
            text = texts.get(path) or path.read_text(encoding='utf-8')
            if text.count(old) != 1:
                raise Bad(f"{self.name}: an 'old:' text is in {file} {text.count(old)} times: {old}")
            texts[path] = text.replace(old, new)
        return texts


def all_fakes(names=()):
    paths = [FAKES / f'{name}.fake' for name in names] or sorted(FAKES.glob('*.fake'))
    return [Fake(path) for path in paths]
