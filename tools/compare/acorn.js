// What acorn, the parser inside node, says of each line: run with `node --expose-internals acorn.js`.
// Answers a line for a line: `tree`, what of JavaScript is in it that the grammar of rules leaves out (joined by `; `), and the
// S-expression with places, separated by tabs; or `error` and acorn's words.
const acorn = require('internal/deps/acorn/acorn/dist/acorn');

// `yield`, `await` and `return` are allowed everywhere, at the top and inside functions.
class Parser extends acorn.Parser {
  get inGenerator() { return true; }
  get inAsync() { return true; }
  get canAwait() { return true; }
  get inFunction() { return true; }
}

const RESERVED = new Set(('null true false this function typeof void delete in instanceof new await yield var return if else ' +
  'while for').split(' '));

let text = '';
let outside = new Set();
const options = {
  ecmaVersion: 'latest', sourceType: 'script', preserveParens: true,
  allowReturnOutsideFunction: true, allowAwaitOutsideFunction: true,
  onTrailingComma() { outside.add('trailing comma'); },
  onInsertedSemicolon() { outside.add('missing semicolon'); },
};

const CHAINS = new Set(['ODot', 'OKey', 'OCall', 'TDot', 'TKey', 'TCall']);
const kindOf = shown => shown[0] === '(' ? shown.slice(1).split('@')[0] : '';
// a place begins at 1, acorn's offsets at 0
const at = node => '@' + (node.start + 1) + ':' + (node.end + 1);
const list = (kind, node, parts) => '(' + kind + at(node) + parts.map(part => ' ' + part).join('') + ')';

// Acorn takes an arrow function as an operand in some places where the standard has no such production.
function operand(node) {
  if (node.type === 'ArrowFunctionExpression') outside.add('arrow function as an operand, which is a fault of acorn');
  return expression(node);
}

function name(node) {
  if (node.type !== 'Identifier') { outside.add('pattern'); return '?'; }
  if (RESERVED.has(node.name)) outside.add('reserved word as a name');
  return 'a' + at(node);
}

function property(node) {
  if (node.type !== 'Property' || node.kind !== 'init' || node.method || node.shorthand) { outside.add('shorthand or method'); return '?'; }
  return list(node.computed ? 'PropC' : 'Prop', node, [expression(node.key), expression(node.value)]);
}

function body(node) {
  return node.type === 'BlockStatement' ? list('Block', node, node.body.map(statement)) : expression(node);
}

// Members and calls: a tail of an optional chain stands directly on a link of it.
function suffix(node, chained, kinds, parts) {
  const of = node.object || node.callee;
  const within = of.type === 'MemberExpression' || of.type === 'CallExpression';
  const left = within ? expression(of, chained) : operand(of);
  const [plain, optional, tail] = kinds;
  const kind = node.optional ? optional : chained && CHAINS.has(kindOf(left)) ? tail : plain;
  return list(kind, node, [left, ...parts]);
}

function expression(node, chained) {
  switch (node.type) {
    case 'Identifier': return name(node);
    case 'Literal':
      if (node.regex) { outside.add('regular expression'); return '?'; }
      return (typeof node.value === 'number' ? '1' : typeof node.value === 'string' ? '"s"' : node.raw) + at(node);
    case 'ThisExpression': return 'this' + at(node);
    case 'ArrayExpression':
      if (node.elements.includes(null)) { outside.add('elision'); return '?'; }
      return list('Array', node, node.elements.map(x => expression(x)));
    case 'ObjectExpression': return list('Object', node, node.properties.map(property));
    case 'FunctionExpression':
      return list(node.id ? 'FnN' : 'Fn', node, [...(node.id ? [name(node.id)] : []), ...node.params.map(name), body(node.body)]);
    case 'ArrowFunctionExpression':
      if (node.async) outside.add('async');
      else if (text[node.start] !== '(') outside.add('arrow parameter without parentheses');
      return list('Arrow', node, [...node.params.map(name), body(node.body)]);
    case 'UnaryExpression': return list('Unary', node, [node.operator, operand(node.argument)]);
    case 'UpdateExpression': return list(node.prefix ? 'Pre' : 'Post', node, [node.operator, operand(node.argument)]);
    case 'BinaryExpression': case 'LogicalExpression':
      return list('Bin', node, [node.operator, operand(node.left), operand(node.right)]);
    case 'AssignmentExpression':
      if (/Pattern$/.test(node.left.type)) { outside.add('pattern'); return '?'; }
      return list('Assign', node, [node.operator, expression(node.left), expression(node.right)]);
    case 'ConditionalExpression':
      return list('Cond', node, [operand(node.test), expression(node.consequent), expression(node.alternate)]);
    case 'SequenceExpression': return list('Seq', node, node.expressions.map(x => expression(x)));
    case 'ParenthesizedExpression': return list('Paren', node, [expression(node.expression)]);
    case 'ChainExpression': return expression(node.expression, true);
    case 'NewExpression': {
      // acorn does not keep whether a list was written; the text behind the callee tells
      const listed = node.arguments.length > 0 || text.slice(node.callee.end, node.end).includes('(');
      return list(listed ? 'New' : 'NewB', node, [operand(node.callee), ...node.arguments.map(x => expression(x))]);
    }
    case 'MemberExpression':
      return suffix(node, chained, node.computed ? ['MemberC', 'OKey', 'TKey'] : ['Member', 'ODot', 'TDot'], [expression(node.property)]);
    case 'CallExpression':
      return suffix(node, chained, ['Call', 'OCall', 'TCall'], node.arguments.map(x => expression(x)));
    case 'AwaitExpression': return list('Await', node, [operand(node.argument)]);
    case 'YieldExpression':
      if (node.delegate) outside.add('yield *');
      return list('Yield', node, node.argument ? [expression(node.argument)] : []);
  }
  outside.add(node.type);
  return '?';
}

function declaration(node) {
  if (node.kind !== 'var') outside.add('let or const');
  return list('Var', node, node.declarations.map(part => name(part.id) + (part.init ? ' = ' + expression(part.init) : '')));
}

const head = node => node === null ? '_' : node.type === 'VariableDeclaration' ? declaration(node) : expression(node);

function statement(node) {
  switch (node.type) {
    case 'ExpressionStatement': return list('Expr', node, [expression(node.expression)]);
    case 'VariableDeclaration': return declaration(node);
    case 'ReturnStatement': return list('Return', node, node.argument ? [expression(node.argument)] : []);
    case 'IfStatement':
      return list('If', node, [expression(node.test), statement(node.consequent), ...(node.alternate ? [statement(node.alternate)] : [])]);
    case 'WhileStatement': return list('While', node, [expression(node.test), statement(node.body)]);
    case 'ForStatement': return list('For', node, [head(node.init), head(node.test), head(node.update), statement(node.body)]);
    case 'ForInStatement':
      if (/Pattern$/.test(node.left.type)) { outside.add('pattern'); return '?'; }
      if (node.left.type === 'VariableDeclaration' && node.left.declarations[0].init) outside.add('value in the Var of a ForIn');
      return list('ForIn', node, [head(node.left), expression(node.right), statement(node.body)]);
    case 'BlockStatement': return body(node);
    case 'LabeledStatement': return list('Labeled', node, [name(node.label), statement(node.body)]);
    case 'EmptyStatement': return list('Empty', node, []);
    case 'FunctionDeclaration': outside.add('function declaration'); return '?';
  }
  outside.add(node.type);
  return '?';
}

function judge(line) {
  text = line;
  outside = new Set();
  try {
    const program = Parser.parse(line, options);
    const shown = line === '' ? '(Script@0:0)' : list('Script', program, program.body.map(statement));
    return ['tree', [...outside].sort().join('; '), shown].join('\t');
  } catch (error) {
    if (error instanceof RangeError) return 'error\tno stack';
    return 'error\t' + error.message.replace(/\s+/g, ' ').replace(/ \([0-9:]+\)$/, '');
  }
}

require('readline').createInterface({ input: process.stdin, terminal: false })
  .on('line', line => process.stdout.write(judge(line) + '\n'));
