"""The rules of docs/GRAMMAR.md as a reader in Python: what `read` should answer for a list of words.

It goes by ECMA-262's productions from the loosest to the tightest, one method for each, and shares nothing with the reader that is
compared with it: that one reads by a table of slots and standings.
"""

# The operators of a Bin by their level.
LEVEL = {
    '??': 3, '||': 3, '&&': 4, '|': 5, '^': 6, '&': 7,
    '==': 8, '!=': 8, '===': 8, '!==': 8,
    '<': 9, '<=': 9, '>': 9, '>=': 9, 'in': 9, 'instanceof': 9,
    '<<': 10, '>>': 10, '>>>': 10, '+': 11, '-': 11, '*': 12, '/': 12, '%': 12, '**': 13,
}
# All but comparisons and equality tests have a form that assigns.
ASSIGN = ['='] + [o + '=' for o, level in LEVEL.items() if level not in (8, 9)]
UNARY = ['-', '+', '!', '~', 'typeof', 'void', 'delete']
WORDS = ('null true false this function typeof void delete in instanceof new await yield var return if else while for').split()
SIGNS = '( ) [ ] { } ; , . : ? ?. => ! ~ ++ --'.split()
FIXED = set(WORDS) | set(SIGNS) | set(LEVEL) | set(ASSIGN)

# What can begin an expression.
BEGINS = {'name', 'number', 'string', 'null', 'true', 'false', 'this', 'function', 'new', 'await', 'yield',
          '(', '[', '{', '++', '--'} | set(UNARY)

CHAINS = {'ODot', 'OKey', 'OCall', 'TDot', 'TKey', 'TCall'}
CLOSES = {'(': ')', '[': ']', '{': '}'}
DEEPEST = 512


class NoDerivation(Exception):
    pass


def code(word):
    """The fixed spelling itself, or which sort of free spelling it is."""
    if word in FIXED:
        return word
    if word[0] == '"':
        return 'string'
    return 'number' if word[0].isdigit() else 'name'


class Record:
    def __init__(self, kind, children, lo, hi, operator=None):
        self.kind, self.children, self.lo, self.hi, self.operator = kind, children, lo, hi, operator
        self.valued = False                     # a Name of a Var with a value next to it

    def is_target(self):
        if self.kind == 'Paren':
            return self.children[0].is_target()
        return self.kind in ('a', 'Member', 'MemberC')

    def shown(self):
        """The S-expression, as `show` of replay prints it."""
        out = []

        def write(record):
            place = '@%d:%d' % (record.lo, record.hi)
            if record.kind[0].islower() or not record.kind[0].isalpha():
                out.append(record.kind + place + (' =' if record.valued else ''))
                return
            out.append('(' + record.kind + place)
            children = list(record.children)
            if record.kind == 'For':
                for there in record.operator:
                    out.append(' ')
                    write(children.pop(0)) if there else out.append('_')
            elif record.operator:
                out.append(' ' + record.operator)
            for child in children:
                out.append(' ')
                write(child)
            out.append(')')
        write(self)
        return ''.join(out)

    def measure(self):
        """How many records there are, and how deep they nest."""
        size = deepest = 0
        todo = [(self, 1)]
        while todo:
            record, depth = todo.pop()
            size, deepest = size + 1, max(deepest, depth)
            todo.extend((child, depth + 1) for child in record.children)
        return size, deepest


class Reader:
    """One method for each production; `free` is false where an `in` may not stand in the open."""

    def __init__(self, words):
        self.codes = [code(word) for word in words] + ['end']
        self.places, lo = [], 1
        for word in words:
            self.places.append((lo, lo + len(word)))
            lo += len(word) + 1
        self.i = 0
        self.closing = {}
        open_ = []
        for i, sign in enumerate(self.codes):
            if sign in CLOSES:
                open_.append(i)
            elif sign in CLOSES.values():
                if not open_ or CLOSES[self.codes[open_[-1]]] != sign:
                    raise NoDerivation
                self.closing[open_.pop()] = i
        if open_:
            raise NoDerivation

    # one token

    def at(self, *codes):
        return self.codes[self.i] in codes

    def took(self, *codes):
        if not self.at(*codes):
            return False
        self.i += 1
        return True

    def eat(self, *codes):
        if not self.took(*codes):
            raise NoDerivation

    def record(self, first, kind, *children, operator=None):
        return Record(kind, list(children), self.places[first][0], self.places[self.i - 1][1], operator)

    def atom(self, kind, *codes):
        first = self.i
        self.eat(*codes)
        return self.record(first, kind)

    def name(self):
        return self.atom('a', 'name')

    def separated(self, part, close):
        """Parts with commas between them, up to a closing sign."""
        parts = []
        if not self.at(close):
            parts.append(part())
            while self.took(','):
                parts.append(part())
        self.eat(close)
        return parts

    # statements

    def script(self):
        statements = []
        while not self.at('end'):
            statements.append(self.statement())
        if not self.places:
            return Record('Script', [], 0, 0)
        return self.record(0, 'Script', *statements)

    def statement(self):
        first = self.i
        if self.at('{'):
            return self.block()
        if self.at('function'):
            raise NoDerivation
        if self.took(';'):
            return self.record(first, 'Empty')
        if self.at('var'):
            names = self.names(True)
            self.eat(';')
            return self.record(first, 'Var', *names)
        if self.took('return'):
            value = [] if self.at(';') else [self.expression()]
            self.eat(';')
            return self.record(first, 'Return', *value)
        if self.took('if'):
            parts = [self.test(), self.statement()]
            if self.took('else'):
                parts.append(self.statement())
            return self.record(first, 'If', *parts)
        if self.took('while'):
            return self.record(first, 'While', self.test(), self.statement())
        if self.at('for'):
            return self.loop()
        if self.at('name') and self.codes[self.i + 1] == ':':
            label = self.name()
            self.eat(':')
            return self.record(first, 'Labeled', label, self.statement())
        value = self.expression()
        self.eat(';')
        return self.record(first, 'Expr', value)

    def test(self):
        self.eat('(')
        value = self.expression()
        self.eat(')')
        return value

    def block(self):
        first = self.i
        self.eat('{')
        statements = []
        while not self.at('}'):
            statements.append(self.statement())
        self.eat('}')
        return self.record(first, 'Block', *statements)

    def names(self, free):
        self.eat('var')
        parts = []
        while True:
            name = self.name()
            parts.append(name)
            if self.took('='):
                name.valued = True
                parts.append(self.assignment(free))
            if not self.took(','):
                return parts

    def loop(self):
        first = self.i
        self.eat('for')
        self.eat('(')
        head, there = [], [False, False, False]
        begin = self.i
        if not self.at(';'):
            if self.at('var'):
                left = self.record_of_names(begin)
                is_left = len(left.children) == 1
            else:
                left = self.expression(False)
                is_left = left.is_target()
            if self.took('in'):
                if not is_left:
                    raise NoDerivation
                over = self.expression()
                self.eat(')')
                return self.record(first, 'ForIn', left, over, self.statement())
            head.append(left)
            there[0] = True
        self.eat(';')
        for part, close in ((1, ';'), (2, ')')):
            if not self.at(close):
                head.append(self.expression())
                there[part] = True
            self.eat(close)
        return self.record(first, 'For', *head, self.statement(), operator=there)

    def record_of_names(self, begin):
        names = self.names(False)
        return self.record(begin, 'Var', *names)

    # expressions, from the loosest on

    def expression(self, free=True):
        first = self.i
        parts = [self.assignment(free)]
        while self.took(','):
            parts.append(self.assignment(free))
        return parts[0] if len(parts) == 1 else self.record(first, 'Seq', *parts)

    def assignment(self, free=True):
        first = self.i
        if self.took('yield'):
            operand = [self.assignment(free)] if self.codes[self.i] in BEGINS else []
            return self.record(first, 'Yield', *operand)
        if self.at('(') and self.codes[self.closing[first] + 1] == '=>':
            self.eat('(')
            parts = self.separated(self.name, ')')
            self.eat('=>')
            parts.append(self.block() if self.at('{') else self.assignment(free))
            return self.record(first, 'Arrow', *parts)
        left = self.conditional(free)
        operator = self.codes[self.i]
        if operator not in ASSIGN:
            return left
        if not left.is_target():
            raise NoDerivation
        self.eat(operator)
        return self.record_of(first, 'Assign', operator, left, self.assignment(free))

    def record_of(self, first, kind, operator, *children):
        return self.record(first, kind, *children, operator=operator)

    def conditional(self, free):
        first = self.i
        test = self.short_circuit(free)
        if not self.took('?'):
            return test
        middle = self.assignment()
        self.eat(':')
        return self.record(first, 'Cond', test, middle, self.assignment(free))

    def short_circuit(self, free):
        """`??` beside `&&` or `||` has no reading: whatever of them comes first decides."""
        first = self.i
        left = self.binary(5, free)
        if self.at('??'):
            while self.took('??'):
                left = self.record_of(first, 'Bin', '??', left, self.binary(5, free))
            return left
        left = self.conjunction(first, left, free)
        while self.took('||'):
            begin = self.i
            right = self.conjunction(begin, self.binary(5, free), free)
            left = self.record_of(first, 'Bin', '||', left, right)
        return left

    def conjunction(self, first, left, free):
        while self.took('&&'):
            left = self.record_of(first, 'Bin', '&&', left, self.binary(5, free))
        return left

    def binary(self, level, free):
        if level == LEVEL['**']:
            return self.power()
        first = self.i
        left = self.binary(level + 1, free)
        while True:
            operator = self.codes[self.i]
            if LEVEL.get(operator) != level or (operator == 'in' and not free):
                return left
            self.eat(operator)
            left = self.record_of(first, 'Bin', operator, left, self.binary(level + 1, free))

    def power(self):
        first = self.i
        left = self.unary()
        if not self.at('**'):
            return left
        if left.kind in ('Unary', 'Await'):
            raise NoDerivation
        self.eat('**')
        return self.record_of(first, 'Bin', '**', left, self.power())

    def unary(self):
        first = self.i
        operator = self.codes[first]
        if self.took(*UNARY):
            return self.record_of(first, 'Unary', operator, self.unary())
        if self.took('await'):
            return self.record(first, 'Await', self.unary())
        if self.took('++', '--'):
            operand = self.unary()
            if not operand.is_target():
                raise NoDerivation
            return self.record_of(first, 'Pre', operator, operand)
        operand = self.left_hand_side()
        operator = self.codes[self.i]
        if not self.at('++', '--'):
            return operand
        if not operand.is_target():
            raise NoDerivation
        self.eat(operator)
        return self.record_of(first, 'Post', operator, operand)

    def left_hand_side(self):
        first = self.i
        left = self.member()
        while self.at('(', '.', '[', '?.'):
            if left.kind == 'NewB':
                raise NoDerivation
            kinds = ('TDot', 'TKey', 'TCall') if left.kind in CHAINS else ('Member', 'MemberC', 'Call')
            if self.took('?.'):
                kinds = ('ODot', 'OKey', 'OCall')
                if not self.at('(', '['):
                    left = self.record(first, kinds[0], left, self.name())
                    continue
            left = self.suffix(first, left, *kinds)
        return left

    def suffix(self, first, left, dot, key, call):
        if self.took('.'):
            return self.record(first, dot, left, self.name())
        if self.took('['):
            inside = self.expression()
            self.eat(']')
            return self.record(first, key, left, inside)
        self.eat('(')
        arguments = self.separated(self.assignment, ')')
        return self.record(first, call, left, *arguments)

    def member(self):
        first = self.i
        if self.took('new'):
            callee = self.member()
            if not self.took('('):
                return self.record(first, 'NewB', callee)
            if callee.kind == 'NewB':
                raise NoDerivation
            arguments = self.separated(self.assignment, ')')
            left = self.record(first, 'New', callee, *arguments)
        else:
            left = self.primary()
        while self.at('.', '['):
            left = self.suffix(first, left, 'Member', 'MemberC', None)
        return left

    def primary(self):
        first = self.i
        if self.at('name'):
            return self.name()
        if self.at('number'):
            return self.atom('1', 'number')
        if self.at('string'):
            return self.atom('"s"', 'string')
        if self.at('null', 'true', 'false', 'this'):
            return self.atom(self.codes[first], self.codes[first])
        if self.took('('):
            inside = self.expression()
            self.eat(')')
            return self.record(first, 'Paren', inside)
        if self.took('['):
            parts = self.separated(self.assignment, ']')
            return self.record(first, 'Array', *parts)
        if self.took('{'):
            parts = self.separated(self.property, '}')
            return self.record(first, 'Object', *parts)
        if self.took('function'):
            own = [self.name()] if self.at('name') else []
            self.eat('(')
            parts = self.separated(self.name, ')')
            parts.append(self.block())
            return self.record(first, 'FnN' if own else 'Fn', *own, *parts)
        raise NoDerivation

    def property(self):
        first = self.i
        if self.took('['):
            key = self.assignment()
            self.eat(']')
            kind = 'PropC'
        else:
            kind = 'Prop'
            key = {'name': self.name, 'number': lambda: self.atom('1', 'number'),
                   'string': lambda: self.atom('"s"', 'string')}.get(self.codes[first], self.name)()
        self.eat(':')
        return self.record(first, kind, key, self.assignment())


def read(words):
    """What `read` answers in a pool that is large enough: ('tree', S-expression, records, depth) or ('refused', number)."""
    try:
        script = Reader(words).script()
    except NoDerivation:
        return ('refused', 6)
    size, depth = script.measure()
    if depth > DEEPEST:
        return ('refused', 3)
    return ('tree', script.shown(), size, depth)
