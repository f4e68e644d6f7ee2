"""What the source declares and states, for tests/documents."""
import fnmatch, os, re

ROOT = os.path.join(os.path.dirname(os.path.abspath(__file__)), '..', '..')

# What stands in backquotes and is no name of ours: the client's documents by number, the C library, tools, what is shown or
# typed, and forms of the language.
FOREIGN = re.compile(r'0[\d.]+( .*)?|memcmp|copy_from_slice|rattle-kit-5b-plain|read|write|close|rt|python3|CBP|hex|\\[nr]|PROGRAM --help|[A-Z]=.*|let \.\. else')


class Tree:
    """The files of the repository."""
    def __init__(self):
        self.texts, self.paths, self.matches = {}, set(), {}
        for folder, folders, files in os.walk(ROOT):
            folders[:] = [name for name in folders if name not in ('.git', 'target', 'out', '__pycache__')]
            self.paths |= {os.path.relpath(os.path.join(folder, name), ROOT) for name in folders + files}

    def text(self, path):
        if path not in self.texts:
            with open(os.path.join(ROOT, path), encoding='utf-8') as file:
                self.texts[path] = file.read()
        return self.texts[path]

    def match(self, *patterns):
        for pattern in patterns:
            if pattern not in self.matches:
                found = fnmatch.filter(self.paths, pattern) if '*' in pattern else {pattern} & self.paths
                self.matches[pattern] = sorted(p for p in found if p.count('/') == pattern.count('/'))
        return [p for pattern in patterns for p in self.matches[pattern]]


def uses(text, name):
    return re.search(r"(?<![\w'-])%s(?![\w'-])" % re.escape(name), text)


def plain(text):
    """A statement with single spaces, without what a reader can spare."""
    return ' '.join(re.sub(r'\bpub | : Type 0(?= where)|^((abbrev|unfoldable) )*', '', text).split())


def items(text):
    """The items of an antt text, each with the parameters of the modules around it and its lines."""
    modules, found = [(0, '')], []
    for line in text.splitlines():
        indent, line = len(line) - len(line.lstrip()), line.strip()
        if not line or line.startswith('--'):
            continue
        while indent < modules[-1][0]:
            modules.pop()
        if indent == modules[-1][0] or not found:
            found.append((modules[-1][1], []))
        found[-1][1].append(line)
        module = re.fullmatch(r'module _ (.*) where', ' '.join(found[-1][1]))
        if module:
            modules.append((modules[-1][0] + 2, modules[-1][1] + module[1] + ' '))
    return found


class Source:
    def __init__(self, tree):
        lines = [line.split(':') for line in tree.text('crates.txt').splitlines() if line and line[0] != '#']
        lines = [(crate.split(), needs.split()) for crate, needs in lines]
        crates = {crate[0] for crate, _ in lines}
        self.tree, self.needs = tree, {crate[0]: [n for n in needs if n in crates] for crate, needs in lines}
        self.exports = {crate[0]: {} for crate, _ in lines if crate[1:]}  # of crates that hand calls to C: each call's contract
        self.functions = {}   # by name with its crate: whether it is public, and its contract
        self.statements = {}  # by file: the text of each definition, record and signature
        self.declared = {}    # by file: the names of these, and of fields and constructors
        self.theorems = {}    # by file and name: the signature
        self.names = {*self.needs, tree.text('KIT').strip()}
        for path in tree.match('crates/*/src/*.rt'):
            self.read_code(path.split('/')[1], tree.text(path))
        for path in tree.match('crates/*/specs/*.antt', 'crates/*/proofs/*.antt'):
            self.read_antt(path, tree.text(path))
        self.calls = re.findall(r'^\w+ (cb_\w+)\(', tree.text('include/csobvarit.h'), re.M)
        self.names.update(re.findall(r'^#define (CB_\w+)', tree.text('include/csobvarit.h'), re.M))
        self.edits = [os.path.basename(path)[:-len('.edit')] for path in tree.match('crates/*/must-fail/*.edit')]
        self.names.update(self.calls, self.edits, *self.declared.values())
        self.words = set(re.findall(r"[\w'-]+", ' '.join(map(tree.text, tree.match('crates/*/*/*.rt', 'crates/*/*/*.antt')))))

    def read_code(self, crate, text):
        # A definition with the name of a function is imported under another; documents call it by its own.
        aliases = re.findall(r"([\w']+) as ([\w']+)[,}]", ' '.join(re.findall(r'^ghost use .*', text, re.M)))
        for found in re.finditer(r'^( *)(pub |pub\(crate\) )?(?:extern "C" )?fn (\w+)((?:(?!;\n).)*?)(?:\{|;)\n', text, re.M | re.S):
            name, clauses = found[3], re.findall(r'\b(requires|ensures)(?: \w+)? \{ (.*?) \}(?=\s*(?:ensures|requires|$))', found[4].strip(), re.S)
            if found[1]:
                name = re.findall(r'^(?:pub )?(?:impl|trait)(?:<.*?>)? (?:[\w:]+(?:<.*?>)? for )?(\w+)', text[:found.start()], re.M)[-1] + '::' + name
            asked, said = ([plain(clause) for kind, clause in clauses if kind == of] for of in ('requires', 'ensures'))
            said = ' → '.join((asked if found[2] == 'pub ' else []) + ['; '.join(said)])
            for own, alias in aliases:
                said = re.sub(r"(?<![\w'-])%s(?![\w'-])" % alias, own, said)
            if crate in self.exports:
                self.exports[crate][name] = said
                continue
            self.functions[crate + '::' + name] = found[2] == 'pub ', said
            self.names |= {name, found[3], crate + '::' + name}
        # A conversion is public, and promises of its result what from_gives says.
        conversions = r'^impl From<([^\n]*?)> for ([^\n]*?) \{\n *ghost from_gives = \{ λ \w+ (\w+)\. (.*?) \};'
        for given, to, made, clause in re.findall(conversions, text, re.M | re.S):
            name, said = 'impl From<%s> for %s' % (given, to), re.sub(r"(?<![\w'-])%s(?![\w'-])" % made, 'result', plain(clause))
            self.functions[crate + ': ' + name] = True, said
            self.names |= {name, crate + ': ' + name}
        for name in re.findall(r'\b(?:struct|enum|trait|const) (\w+)', text):
            self.names |= {name, crate + '::' + name}

    def read_antt(self, path, text):
        self.statements[path], self.declared[path], self.theorems[path] = set(), set(), {}
        for parameters, lines in items(text):
            whole = plain(' '.join(lines))
            kind, name = re.match(r'(record |data |)(\S+)', whole).groups()
            if kind:
                fields = [re.match(r'(?:pub )?([^:(]+) :', line) for line in lines[1:]]
                self.declared[path].update([name], *(field[1].split() for field in fields if field))
            elif whole.startswith(name + ' : '):
                whole = '%s : %s%s' % (name, parameters and parameters + '→ ', whole[len(name + ' : '):])
                self.declared[path].add(name)
                self.theorems[path][name] = whole
            self.statements[path].add(whole)

    def needed(self, crate):
        """The crates that a crate needs and that none of its other needs brings along."""
        return [n for n in self.needs[crate] if not any(n in self.needs[other] for other in self.needs[crate])]

    def find(self, code, folders=()):
        """The files that a path means: one from the top or in a folder named before, or those of that name in the crates."""
        path = re.sub(r'\b(NAME|F)\b', '*', code.removeprefix('./').rstrip('/'))
        named = [p for folder in ['.', *folders] for p in self.tree.match(os.path.normpath(os.path.join(folder, path)))]
        return named[:1] or self.tree.match('crates/' + path, 'crates/*/' + path, 'crates/*/*/' + path)

    def has(self, code):
        """Whether what stands in backquotes is there."""
        if FOREIGN.fullmatch(code) or code in self.names:
            return True
        if code.startswith('target/'):
            return code in self.tree.text('build')
        if code.endswith('_F'):
            return any(name.startswith(code[:-1]) for name in self.names)
        if ' ' not in code or '/' in code.split()[0]:
            return all(self.find(path) for path in code.split() if '/' in path or path == code)
        return all(word in self.words for word in re.findall(r"[\w'-]*[^\W\d][\w'-]*", code))

    def believed(self):
        """What a reader has to believe, and how many lines it has: Paper, Coded, Number and Claims, and what all but Coded import."""
        files = [p for crate in self.needs for name in ('Claims', 'Coded', 'Number', 'Paper')
                 for p in self.tree.match('crates/%s/specs/%s.antt' % (crate, name))]
        for path in files:
            imports = re.findall(r'^use Rattle\.(\w+)\.specs\.(\w+)', self.tree.text(path), re.M)
            named = {'crates/%s/specs/%s.antt' % use for use in imports if not path.endswith('/Coded.antt')}
            files += sorted(named & set(self.statements) - set(files))
        return [(p, len(self.tree.text(p).splitlines())) for crate in self.needs for p in sorted(files) if p.split('/')[1] == crate]
