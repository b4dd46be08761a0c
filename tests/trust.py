"""What a contract or the statement of a theorem rests on: the definitions that it names, those that these name, and so on. tests/documents asks.
A definition is a name of a file (its path without 'crates/' and its ending) of specs/ or proofs/; a type of the code is one of 'CRATE/src', as are
contracts; what the toolchain's library defines is a name of one of its modules, and nothing behind it is looked at.
Of a contract or a statement all names in it count, of a definition those of its signature and of its body. A variable that has a definition's name
counts as it, but for those that a signature binds: so rather too much is found than too little."""
import collections, functools, glob, pathlib, re

Key = collections.namedtuple('Key', 'file name')
Item = collections.namedtuple('Item', 'key kind line lines signature clauses')  # kind: 'data', 'record' or ''

SKIP = {'Type', 'where', 'record', 'let', 'in', 'λ', 'unfolding', 'abbrev', 'unfoldable', 'pub', 'data', 'now', 'true', 'false'}

@functools.cache
def text(path):
    return pathlib.Path(path).read_text(encoding='utf-8', errors='replace')

def bare(code):
    """Code without its comments and its texts."""
    return re.sub(r'(?m)(?:^|(?<=\s))--(?:\s.*)?$|//.*', '', re.sub(r'b?"[^"\n]*"|b\'.\'', ' ', code))

def words(code):
    """The names in a piece of code; a field's, behind a bracket and a point, is none."""
    return [w for w in re.split(r'[\s()\[\]{},;]+', bare(code)) if w and not w.startswith('.')]

def binders(code):
    """The variables that a signature binds: (x y : T)."""
    return {name for names in re.findall(r'[({]([^(){}:=→]+?) :(?= |$)', bare(code), re.M) for name in names.split()}

# ---- a file of definitions or of proofs

SIGNATURE = re.compile(r'^(?:(?:pub|abbrev|unfoldable) )*(?:(data|record) (\S+)|(\S+) :(?= |$))')

@functools.cache
def items(path):
    """What a file defines, in its order: each from its signature to the next one. Those in a block with parameters have these in their
    signature; a line that is blank or a comment does not count."""
    file, found, blocks = path[len('crates/'):-len('.antt')], [], []  # blocks: their indentation and their parameters
    open_block = ''
    for number, line in enumerate(text(path).split('\n'), 1):
        code = bare(line).rstrip()
        if not code.strip():
            continue
        indent = len(code) - len(code.lstrip())
        if open_block:  # parameters that go on
            blocks[-1][1] += code + '\n'
            open_block = not code.endswith('where')
            continue
        while blocks and indent <= blocks[-1][0]:
            blocks.pop()
        level = blocks[-1][0] + 2 if blocks else 0
        part = code.strip()
        if indent == level and part.startswith('module '):
            blocks.append([indent, part + '\n'])
            open_block = not part.endswith('where')
        elif indent == level and re.match(r'(?:pub )?(?:use|mod) ', part):
            continue
        elif indent == level and (m := SIGNATURE.match(part)):
            parameters = ''.join(re.sub(r'module \S+|\bwhere$', '', p, flags=re.M) for _, p in blocks)
            found.append([Key(file, m[2] or m[3]), m[1] or '', number, 1, parameters + ' ' + line.strip() + '\n', []])
        elif found:
            found[-1][3] += 1
            first = indent == level and not found[-1][1]
            if first or found[-1][5]:  # a clause, or what belongs to the one before
                if first:
                    found[-1][5].append('')
                found[-1][5][-1] += line + '\n'
            else:
                found[-1][4] += line + '\n'
    return tuple(Item(*f[:5], tuple(f[5])) for f in found)

def parts(item):
    """The constructors of a type, and the fields of a record."""
    return re.findall(r'^ +(?:pub )?(\S+) :(?= |$)', item.signature, re.M) if item.kind else []

# ---- a file of code

@functools.cache
def types(crate):
    """The structs and enums of a crate's code, each with its text."""
    found = {}
    for path in sorted(glob.glob(f'crates/{crate}/src/*.rt')):
        for m in re.finditer(r'^(?:pub )?(?:struct|enum) (\w+)(.*?)(?:;\n|^\}\n)', text(path), re.M | re.S):
            found[m[1]] = path, text(path).count('\n', 0, m.start()) + 1, m[0]
    return found

def header(function):
    """A function's signature and contract: what stands before its body."""
    m = re.search(r'^ *\{$', function.code, re.M)
    return function.code[:m.start()] if m else function.code.split('{')[0]

# ---- names

def module(path):
    """The file that a module's path names: 'Rattle.days.specs.Covered' is days/specs/Covered; a type of the code is of days/src."""
    m = re.fullmatch(r'Rattle\.(\w+)\.(.*)', path)
    if not m or not pathlib.Path(f'crates/{m[1]}').is_dir():
        return path
    if m[2].startswith('specs.declared.'):
        return f'{m[1]}/src'
    return m[1] + '/' + m[2].replace('.', '/')

@functools.cache
def scope(path):
    """What names mean in a file: of each name its key, and of each name of a module the module's file."""
    names, modules = {}, {}
    for m in re.finditer(r'^ *(?:ghost )?(?:pub )?use ([^\s;{]+?)(?:\.\{(.*?)\})?(?: as (\S+?))?;?$', text(path), re.M | re.S):
        target, those, alias = module(m[1]), m[2], m[3]
        if those is None:
            modules[alias or m[1].split('.')[-1]] = target
            continue
        for word in those.split(','):
            name, _, local = word.strip().partition(' as ')
            variant = re.search(r'declared\.(?:\w+\.)*?(\w+)\.TheVariants$', m[1])
            names[local.strip() or name] = Key(target, variant[1]) if variant else found_in(target, name)
    if path.endswith('.antt'):
        file = path[len('crates/'):-len('.antt')]
        for item in items(path):
            names[item.key.name] = item.key
            names |= {part: item.key for part in parts(item) if item.kind == 'data'}
    else:
        crate = path.split('/')[1]
        for m in re.finditer(r'^use (\w+)::(?:(\w+)|\{(.*?)\});', text(path), re.M | re.S):
            for name in (m[2] or m[3]).split(','):
                names[name.strip()] = Key(f'{m[1]}/src', name.strip())
        names |= {name: Key(f'{crate}/src', name) for name in types(crate)}
    return names, modules

def operators(names):
    """A name with holes, as ◌+◌, is used by the words between them."""
    return {word: name for name in names if '◌' in name for word in name.split('◌') if word}

@functools.cache
def known(file):
    """The definitions of a file, with the constructors of its types."""
    path = f'crates/{file}.antt'
    return {part: item.key for item in items(path) for part in [*(parts(item) if item.kind == 'data' else []), item.key.name]}

def found_in(file, name):
    """The definition that a name of a file stands for: a constructor stands for its type, also where it is named by the type's own path. Of the
    library's and of made modules nothing is known."""
    within, _, type = file.rpartition('/')
    if pathlib.Path(f'crates/{file}.antt').exists():
        return known(file).get(name, Key(file, name))
    return known(within).get(type, Key(file, name)) if pathlib.Path(f'crates/{within}.antt').exists() else Key(file, name)

def meant(path, code):
    """The keys of the names in a piece of a file's code."""
    names, modules = scope(path)
    holes, found = operators(names), set()
    for word in words(code):
        word = word if word in names else re.sub(r'(?<=\w)\.$|^\.', '', word)
        if word in SKIP or re.fullmatch(r'[\d.:=→]+', word):
            continue
        front, _, rest = word.partition('.')
        if word in names:
            found.add(names[word])
        elif word in holes:
            found.add(names[holes[word]])
        elif rest and front in modules:  # with a field behind it, as list.longest.0
            found.add(found_in(modules[front], rest.partition('.')[0]))
        elif rest and front in names:
            found.add(names[front])
    return found

@functools.cache
def where_defined():
    """Of each definition of the crates its path and its item."""
    paths = glob.glob('crates/*/specs/*.antt') + glob.glob('crates/*/proofs/**/*.antt', recursive=True)
    return {item.key: (path, item) for path in sorted(paths) for item in items(path)}

def statement(key):
    """What the statement of a theorem names; a variable that it binds is none."""
    path, item = where_defined()[key]
    return meant(path, item.signature) - {key} - {scope(path)[0].get(name) for name in binders(item.signature)}

def contract(function):
    """What a function's contract and signature name."""
    return meant(function.path, header(function))

@functools.cache
def named_in(key):
    """What a definition names, in its signature and its body."""
    if key.file.endswith('/src'):
        path, _, code = types(key.file[:-len('/src')]).get(key.name, ('', 0, ''))
        return meant(path, code) - {key} if path else set()
    if key not in where_defined():
        return set()
    path, item = where_defined()[key]
    return statement(key).union(*(meant(path, clause) for clause in item.clauses)) - {key}

def reached(roots):
    """All that these rest on, themselves included."""
    seen, new = set(), set(roots)
    while new:
        seen |= new
        new = {k for key in new for k in named_in(key)} - seen
    return seen

def lines(key):
    """How many lines a definition has, without comments."""
    if key.file.endswith('/src'):
        return len([l for l in bare(types(key.file[:-len('/src')])[key.name][2]).split('\n') if l.strip()])
    return where_defined()[key][1].lines

def sort(key):
    """'specs', 'proofs', 'src' or 'library'."""
    m = re.match(r'\w+/(specs|proofs|src)', key.file)
    return m[1] if m else 'library'
