"""Lists of words to compare on: good rules of every kind, damaged ones, short ones one by one, and the edges of the limits."""
import itertools

from reading import ASSIGN, FIXED, LEVEL, UNARY, code

# The slots of a Bin's operands by its level: left, right.
OPERANDS = {level: (level, level + 1) for level in range(5, 13)}


class Rules:
    """Writes rules that the grammar derives. A method for a slot writes an expression that may stand bare there."""

    def __init__(self, random):
        self.random = random
        self.count = 0

    def pick(self, *choices):
        return self.random.choice(choices)

    def name(self):
        self.count += 1
        return ['n%d' % self.count]

    def several(self, part, least=0):
        """Parts with commas between them."""
        words = []
        for i in range(max(least, self.pick(0, 1, 1, 2, 3))):
            words += ([','] if i else []) + part()
        return words

    # statements

    def script(self, depth):
        return [word for _ in range(self.pick(0, 1, 1, 1, 2, 3)) for word in self.statement(depth)]

    def block(self, depth):
        return ['{'] + [word for _ in range(self.pick(0, 1, 1, 2)) for word in self.statement(depth - 1)] + ['}']

    def statement(self, depth, dangles=True):
        """With `dangles` false, one that may stand before an `else`."""
        kind = self.pick('Expr', 'Expr', 'Expr', 'Expr', 'Var', 'Return', 'If', 'If', 'While', 'For', 'ForIn', 'Block', 'Labeled', 'Empty')
        if depth <= 0:
            kind = self.pick('Expr', 'Empty')
        inner = depth - 1
        if kind == 'Expr':
            return self.start(lambda: self.expression(inner)) + [';']
        if kind == 'Var':
            return self.declaration(inner, True) + [';']
        if kind == 'Return':
            return ['return'] + self.pick([], self.expression(inner)) + [';']
        if kind == 'If':
            head = ['if', '('] + self.expression(inner - 1) + [')']
            if dangles and self.random.random() < .4:
                return head + self.statement(inner)
            return head + self.statement(inner, False) + ['else'] + self.statement(inner, dangles)
        if kind == 'While':
            return ['while', '('] + self.expression(inner - 1) + [')'] + self.statement(inner, dangles)
        if kind == 'For':
            init = self.pick([], self.declaration(inner, False), self.expression(inner, False))
            test = self.pick([], self.expression(inner))
            update = self.pick([], self.expression(inner))
            return ['for', '('] + init + [';'] + test + [';'] + update + [')'] + self.statement(inner, dangles)
        if kind == 'ForIn':
            left = self.pick(['var'] + self.name(), self.target(inner))
            return ['for', '('] + left + ['in'] + self.expression(inner) + [')'] + self.statement(inner, dangles)
        if kind == 'Block':
            return self.block(depth)
        if kind == 'Labeled':
            return self.name() + [':'] + self.statement(inner, dangles)
        return [';']

    def start(self, part, also='function'):
        """What begins neither with `{` nor with `function`."""
        while True:
            words = part()
            if words[0] not in ('{', also):
                return words

    def declaration(self, depth, free):
        def part():
            return self.name() + self.pick([], ['='] + self.assignment(depth, free))
        return ['var'] + self.several(part, 1)

    # expressions: `free` is false where no `in` may stand in the open

    def expression(self, depth, free=True):
        if self.random.random() < .15:
            return self.several(lambda: self.assignment(depth - 1, free), 2)
        return self.assignment(depth, free)

    def assignment(self, depth, free=True):
        kind = self.pick('Assign', 'Arrow', 'Yield', *['Cond'] * 9) if depth > 0 else 'Cond'
        if kind == 'Assign':
            return self.target(depth - 1) + [self.pick('=', *ASSIGN)] + self.assignment(depth - 1, free)
        if kind == 'Arrow':
            body = self.pick(lambda: self.block(depth - 1),
                             lambda: self.start(lambda: self.assignment(depth - 1, free), '{'))()
            return ['('] + self.several(self.name) + [')', '=>'] + body
        if kind == 'Yield':
            return ['yield'] + self.pick([], self.assignment(depth - 1, free))
        if depth > 0 and self.random.random() < .1:
            return (self.short(depth - 1, free) + ['?'] + self.assignment(depth - 1)
                    + [':'] + self.assignment(depth - 1, free))
        return self.short(depth, free)

    def short(self, depth, free):
        if depth > 0 and self.random.random() < .2:
            operator = self.pick('??', '&&', '||')
            if operator == '??':
                parts = [self.binary(5, depth - 1, free) for _ in range(self.pick(2, 2, 3))]
            elif operator == '&&':
                parts = [self.binary(5, depth - 1, free) for _ in range(self.pick(2, 2, 3))]
            else:
                parts = [self.conjunction(depth - 1, free) for _ in range(self.pick(2, 2, 3))]
            words = parts[0]
            for part in parts[1:]:
                words = words + [operator] + part
            return words
        return self.binary(5, depth, free)

    def conjunction(self, depth, free):
        words = self.binary(5, depth, free)
        if self.random.random() < .3:
            words += ['&&'] + self.binary(5, depth, free)
        return words

    def binary(self, level, depth, free):
        """An expression of a level from 5 up."""
        if depth <= 0 or self.random.random() < .4:
            return self.unary(depth)
        operator = self.pick(*[o for o, l in LEVEL.items() if level <= l and l >= 5 and (free or o != 'in')] or ['**'])
        own = LEVEL[operator]
        if own == 13:
            return self.update(depth - 1) + ['**'] + self.pick(self.unary, self.power)(depth - 1)
        left, right = OPERANDS[own]
        return self.binary(left, depth - 1, free) + [operator] + self.binary(right, depth - 1, free)

    def power(self, depth):
        return self.update(depth - 1) + ['**'] + self.unary(depth - 1)

    def unary(self, depth):
        kind = self.pick('Unary', 'Await', *['Update'] * 6)
        if depth > 0 and kind == 'Unary':
            return [self.pick(*UNARY)] + self.unary(depth - 1)
        if depth > 0 and kind == 'Await':
            return ['await'] + self.unary(depth - 1)
        return self.update(depth)

    def update(self, depth):
        if depth > 0 and self.random.random() < .12:
            target, sign = self.target(depth - 1), self.pick('++', '--')
            return self.pick([sign] + target, target + [sign])
        return self.pick(self.member, self.member, self.call, self.chain, self.new)(depth)

    def target(self, depth):
        if depth > 0 and self.random.random() < .2:
            return ['('] + self.target(depth - 1) + [')']
        if depth <= 0 or self.random.random() < .5:
            return self.name()
        return self.pick(self.member, self.call)(depth - 1) + self.key(depth - 1)

    def key(self, depth):
        return self.pick(['.'] + self.name(), ['['] + self.expression(depth - 1) + [']'])

    def arguments(self, depth):
        return ['('] + self.several(lambda: self.assignment(depth - 1)) + [')']

    def member(self, depth):
        """Class M."""
        if depth > 0 and self.random.random() < .3:
            return self.pick(self.member(depth - 1) + self.key(depth), ['new'] + self.member(depth - 1) + self.arguments(depth))
        return self.primary(depth)

    def new(self, depth):
        if depth <= 0:
            return self.member(depth)
        return ['new'] + self.pick(self.new, self.member)(depth - 1)

    def call(self, depth):
        if depth <= 0:
            return self.member(depth)
        return self.pick(self.call, self.member)(depth - 1) + self.pick(self.arguments, self.key)(depth - 1)

    def chain(self, depth):
        if depth <= 0:
            return self.member(depth)
        words = self.pick(self.member, self.call)(depth - 1) + self.link(depth)
        for _ in range(self.pick(0, 0, 1, 2)):
            words += self.pick(self.link, self.key, self.arguments)(depth - 1)
        return words

    def link(self, depth):
        return ['?.'] + self.pick(self.name, lambda: ['['] + self.expression(depth - 1) + [']'], lambda: self.arguments(depth))()

    def primary(self, depth):
        kind = self.pick(*['Name'] * 6, 'Num', 'Str', 'Word', 'This')
        if depth > 0:
            kind = self.pick(kind, kind, 'Array', 'Object', 'Fn', 'Paren', 'Paren')
        self.count += 1
        if kind == 'Num':
            return [self.pick('7', '0.19', '12')]
        if kind == 'Str':
            return ['"s%d"' % self.count]
        if kind == 'Word':
            return [self.pick('null', 'true', 'false')]
        if kind == 'This':
            return ['this']
        if kind == 'Array':
            return ['['] + self.several(lambda: self.assignment(depth - 1)) + [']']
        if kind == 'Object':
            return ['{'] + self.several(lambda: self.property(depth - 1)) + ['}']
        if kind == 'Fn':
            return ['function'] + self.pick([], self.name()) + ['('] + self.several(self.name) + [')'] + self.block(depth - 1)
        if kind == 'Paren':
            return ['('] + self.expression(depth - 1) + [')']
        return self.name()

    def property(self, depth):
        key = self.pick(self.name(), ['"k%d"' % self.count], ['3'], ['['] + self.assignment(depth) + [']'])
        return key + [':'] + self.assignment(depth)


# What is put into a rule that is damaged: every spelling, and those at the edges of the grammar more often.
SPELLINGS = sorted(FIXED) + ['n0', '7', '"s"'] * 6 + '( ) , ; [ ] { } in yield ?. => new ** : . = else'.split() * 3


def damaged(random, words):
    """A rule with a few words deleted, inserted, replaced, exchanged or doubled."""
    words = list(words)
    for _ in range(random.choice([1, 1, 1, 2, 3])):
        i = random.randrange(len(words) + 1)
        how = random.choice(['delete', 'insert', 'replace', 'exchange', 'double'])
        if how == 'insert' or not words:
            words.insert(i, random.choice(SPELLINGS))
            continue
        i = min(i, len(words) - 1)
        if how == 'delete':
            del words[i]
        elif how == 'replace':
            words[i] = random.choice(SPELLINGS)
        elif how == 'exchange':
            j = random.randrange(len(words))
            words[i], words[j] = words[j], words[i]
        else:
            words.insert(i, words[i])
    return words


def unlike(words):
    """The same list with no two names and no two strings alike: what is declared twice is no matter of the grammar here."""
    count, out = 0, []
    for word in words:
        sort = code(word)
        if sort in ('name', 'string'):
            count += 1
            word = ('n%d' if sort == 'name' else '"s%d"') % count
        out.append(word)
    return out


# One spelling for each thing that a token can do.
REPRESENTATIVES = ('n0 7 "s" null this function typeof in instanceof new await yield var return if else while for '
                   '( ) [ ] { } ; , . : ? ?. => ! ++ + * ** < == & ?? || && = +=').split()


def short():
    """Every list of at most two words, with and without a `;` behind it, and of three representatives with one."""
    every = sorted(FIXED) + ['n0', '7', '"s"']
    for length in (0, 1, 2):
        for words in itertools.product(every, repeat=length):
            yield list(words)
            yield list(words) + [';']
    for words in itertools.product(REPRESENTATIVES, repeat=3):
        yield list(words) + [';']


def nested(n):
    """Ways to nest n times."""
    yield 'pairs', ['('] * n + ['a0'] + [')'] * n + [';']
    yield 'arrays', ['['] * n + [']'] * n + [';']
    yield 'unary operators', ['-', '+'] * (n // 2) + ['!'] * (n % 2) + ['a0', ';']
    yield 'blocks', ['{'] * n + ['}'] * n
    yield 'labels', [word for i in range(n) for word in ('n%d' % i, ':')] + [';']
    yield 'ifs', 'if ( a )'.split() * n + [';']
    yield 'ifs with else', 'if ( a ) ; else'.split() * n + [';']
    yield 'conditions', 'a ? b :'.split() * n + ['c', ';']
    yield 'assignments', ['a', '='] * n + ['c', ';']
    yield 'sums', ['a', '+'] * n + ['c', ';']
    yield 'powers', ['a', '**'] * n + ['c', ';']
    yield 'members', ['a'] + ['.', 'b'] * n + [';']
    yield 'calls', ['a'] + ['(', ')'] * n + [';']
    yield 'chains', ['a', '?.', 'b'] + ['.', 'b'] * n + [';']
    yield 'news', ['new'] * n + ['a', ';']
    yield 'yields', ['yield'] * n + ['a', ';']
    yield 'arrows', '( ) =>'.split() * n + ['a', ';']
    yield 'arrows with a body', ['x', '='] + '( ) => { return'.split() * n + ['a'] + [';', '}'] * n + [';']
    yield 'functions', ['x', '='] + 'function ( ) { return'.split() * n + ['a'] + [';', '}'] * n + [';']
    yield 'objects', ['x', '='] + '{ a :'.split() * n + ['1'] + ['}'] * n + [';']
    yield 'arguments', ['f', '('] * n + [')'] * n + [';']
    yield 'keys', ['a', '['] * n + ['b'] + [']'] * n + [';']


def edges():
    """Lists at the limits of depth, and at 500 words, from which on 3 may be answered for 6."""
    for n in (254, 255, 256, 257, 498, 499, 500, 501, 507, 508, 509, 510, 511, 512, 513, 600):
        for _, words in nested(n):
            yield words
            yield words[:-1]
            yield words + [')']
    for n in (498, 499, 500, 501):
        yield ['('] * n
        yield ['-'] * n
        yield ['('] * (n - 1) + [';']


# Words that JavaScript reserves or treats specially, and that are names here.
ODD = 'let class const static async super import export switch throw try catch eval arguments enum with debugger get set of do'.split()


def oddly_named(random, words):
    """The rule with some names spelled oddly, and the same rule with plain names of equal length."""
    odd, plain = [], []
    for i, word in enumerate(words):
        if code(word) == 'name' and random.random() < .7:
            other = random.choice([name for name in ODD if len(name) > len(str(i))])
            odd.append(other)
            plain.append('m' + str(i).zfill(len(other) - 1))
        else:
            odd.append(word)
            plain.append(word)
    return odd, plain


# What is settled by hand: acorn and the grammar of rules differ on each of these, and why.
BY_HAND = [
    ('f ( a , ) ;', 'trailing comma'),
    ('[ a , ] ;', 'trailing comma'),
    ('x = { a : 1 , } ;', 'trailing comma'),
    ('( a , ) => b ;', 'trailing comma'),
    ('[ , ] ;', 'elision'),
    ('[ a , , b ] ;', 'elision'),
    ('yield * a ;', 'yield *'),
    ('a => b ;', 'arrow parameter without parentheses'),
    ('x = { a } ;', 'shorthand or method'),
    ('x = { a ( ) { } } ;', 'shorthand or method'),
    ('x = { get a ( ) { } } ;', 'shorthand or method'),
    ('[ a ] = b ;', 'pattern'),
    ('( { a : b } = c ) ;', 'pattern'),
    ('( a = 1 ) => b ;', 'pattern'),
    ('( [ a ] ) => b ;', 'pattern'),
    ('for ( [ a ] in b ) ;', 'pattern'),
    ('var [ a ] = b ;', 'pattern'),
    ('x = function ( a = 1 ) { } ;', 'pattern'),
    ('function a ( ) { }', 'function declaration'),
    ('if ( a ) function b ( ) { }', 'function declaration'),
    ('/ a / ;', 'regular expression'),
    ('x = / a / ;', 'regular expression'),
    ('a . in ;', 'reserved word as a name'),
    ('a ?. new ;', 'reserved word as a name'),
    ('x = { in : 1 } ;', 'reserved word as a name'),
    ('for ( var a = 1 in b ) ;', 'value in the Var of a ForIn'),
    ('a', 'missing semicolon'),
    ('{ a }', 'missing semicolon'),
    ('return', 'missing semicolon'),
    ('var a', 'missing semicolon'),
    ('x = function ( ) { new . target ; } ;', 'new . target'),
    ('a : a : ;', 'declared twice: names have no spelling here'),
    ('( a , a ) => b ;', 'declared twice: names have no spelling here'),
    ('class a { }', 'a word that is a name here'),
    ('let a = 1 ;', 'a word that is a name here'),
    ('const a = 1 ;', 'a word that is a name here'),
    ('do ; while ( a ) ;', 'a word that is a name here'),
    ('throw a ;', 'a word that is a name here'),
    ('switch ( a ) { }', 'a word that is a name here'),
    ('try { } finally { }', 'a word that is a name here'),
    ('with ( a ) ;', 'a word that is a name here'),
    ('debugger ;', 'a word that is a name here'),
    ('break ;', 'a word that is a name here'),
    ('for ( a of b ) ;', 'a word that is a name here'),
    ('async ( ) => a ;', 'a word that is a name here'),
    ('import ( a ) ;', 'a word that is a name here'),
    ('super . a ;', 'a word that is a name here'),
    ('class = enum ;', 'a word that is a name here'),
]
