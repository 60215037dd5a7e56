'use strict';

/* Functions that make the values of a type, each generated once. Names come from untrusted
 * metadata, so they stand in generated code as quoted constants alone.
 *
 * A function takes the position of a node. A type is flat if each of its values has the same number
 * of nodes; it is then written out at constant offsets, unless it is large. */

const { valueAt, bitsAt, isNumber, I256 } = require('./interpreter');
const { Empties } = require('./sequences');
const { PRIMITIVES } = require('./types');
const { records, wideAt, signedAt, hugeAt, textAt, bytesAt } = require('./records');

const [BOOL, CHAR, STR, U256, I8] = ['bool', 'char', 'str', 'u256', 'i8'].map((name) =>
  PRIMITIVES.indexOf(name));

/** Flat types of up to this many nodes are written out where they stand. */
const MOST_INLINE = 48;
/** Values of a type that are made by the interpreter before a function is generated for it. */
const FIRST_USES = 4;

const tools = { records, wideAt, signedAt, hugeAt, textAt, bytesAt, bitsAt, Empties };
const PROLOGUE = `'use strict';
const { records, wideAt, signedAt, hugeAt, textAt, bytesAt, bitsAt, Empties } = tools;
`;

/** A key of an object literal. `__proto__` would be no field without the brackets. */
function keyOf(name) {
  return name === '__proto__' ? '["__proto__"]' : JSON.stringify(name);
}

/** The position that is so many nodes after another. */
function plus(position, nodes) {
  return nodes === 0 ? position : `${position} + ${nodes}`;
}

/** Whether code may be generated in this process. */
function mayGenerate() {
  try {
    return new Function('return true')();
  } catch {
    return false;
  }
}

const isAllowed = mayGenerate();

/** The functions that make the values of a registry's types. */
class Readers {
  /** The function of each type that has one. */
  functions;
  #arms = new Map();
  #uses = new Map();
  #sizes = new Map();
  #types;

  constructor(types) {
    this.#types = types;
    this.functions = new Array(types.count).fill(undefined);
  }

  /** The function for so many values of a type, or the interpreter while the type is new. */
  of(type, count = 1) {
    if (this.functions[type] !== undefined) return this.functions[type];
    const uses = (this.#uses.get(type) ?? 0) + count;
    this.#uses.set(type, uses);
    if (!isAllowed || uses <= FIRST_USES) return (at) => valueAt(this.#types, at);
    return this.generated(type);
  }

  /** The generated function for a type. */
  generated(type) {
    this.functions[type] ??= this.#compile(this.#bodyOf(this.#types.of(type)));
    return this.functions[type];
  }

  #arm(info, position) {
    const key = `${info.type} ${position}`;
    let found = this.#arms.get(key);
    if (found === undefined) {
      found = this.#compile(this.#armBody(info, info.arms[position]));
      this.#arms.set(key, found);
    }
    return found;
  }

  #compile(body) {
    const source = `${PROLOGUE}${body}`;
    const met = (type) => this.generated(type);
    const arm = (type, position) => this.#arm(this.#types.of(type), position);
    return new Function('tools', 'types', 'met', 'arm', source)(tools, this.#types, met, arm);
  }

  /** How many nodes each value of a type has, or 0 if their number varies or is large. */
  #sizeOf(type, depth = 0) {
    const known = this.#sizes.get(type);
    if (known !== undefined) return known;
    const info = this.#types.of(type);
    if (this.#isLeaf(info)) return 1;
    // A type of so many levels has more nodes. It may be smaller where it stands elsewhere.
    if (depth > MOST_INLINE) return 0;
    const size = this.#sizeOfFields(info, depth);
    this.#sizes.set(type, size);
    return size;
  }

  /** Whether each value of a type is one node without children. */
  #isLeaf(info) {
    const { kind, valueClass } = info;
    if (valueClass === 'Empty') return true;
    if (kind === 'primitive' || kind === 'compact' || kind === 'bitsequence') return true;
    return this.#types.isBytes(info) || this.#isCount(info);
  }

  #sizeOfFields({ kind, valueClass, fields }, depth) {
    const hasFields = kind === 'composite' || kind === 'tuple';
    if (!hasFields || valueClass === 'NoValue') return 0;
    let size = 1;
    for (const { type } of fields) {
      const of = this.#sizeOf(type, depth + 1);
      if (of === 0 || size + of > MOST_INLINE) return 0;
      size += of;
    }
    return size;
  }

  #isCount({ kind, element }) {
    return kind === 'sequence' && this.#types.of(element).valueClass === 'Empty';
  }

  /** The body of a factory of the function for a type. */
  #bodyOf(info) {
    if (info.kind === 'variant' && info.valueClass === 'Sized') return this.#variantBody(info);
    const isRun = info.kind === 'sequence' || info.kind === 'array';
    if (isRun && this.#sizeOf(info.type) === 0) return this.#listBody(info);
    if (this.#sizeOf(info.type) > 0) {
      return `return (at) => { const { u32 } = records;
return ${this.#expression(info.type, 'at', 0)}; };`;
    }
    return this.#fieldsFactory(info, (fields) => fields);
  }

  /** An expression of a flat type's value, whose node is so many after a position. */
  #expression(type, position, nodes) {
    const info = this.#types.of(type);
    const { kind, valueClass, primitive } = info;
    const at = plus(position, nodes);
    if (valueClass === 'Empty') return 'null';
    if (kind === 'primitive') return this.#primitive(primitive, position, nodes);
    if (kind === 'compact') return this.#integer(info.target, position, nodes);
    if (kind === 'bitsequence') return `bitsAt(types, ${at})`;
    if (kind === 'sequence' && this.#isCount(info)) return `new Empties(${low(position, nodes)})`;
    if (kind === 'sequence' || kind === 'array') return `bytesAt(${at})`;
    let next = nodes + 1;
    const values = info.fields.map((field) => {
      const value = this.#expression(field.type, position, next);
      next += this.#sizeOf(field.type);
      return value;
    });
    return this.#literal(info, values);
  }

  #primitive(primitive, position, nodes) {
    const at = plus(position, nodes);
    if (primitive === BOOL) return `${low(position, nodes)} === 1`;
    if (primitive === CHAR) return `String.fromCodePoint(${low(position, nodes)})`;
    if (primitive === STR) return `textAt(${at})`;
    if (primitive === U256 || primitive === I256) return `hugeAt(${at}, ${primitive === I256})`;
    return this.#integer(primitive, position, nodes);
  }

  #integer(primitive, position, nodes) {
    const at = plus(position, nodes);
    const isSigned = primitive >= I8;
    if (!isNumber(primitive)) return isSigned ? `signedAt(${at})` : `wideAt(${at})`;
    return isSigned ? `${low(position, nodes)} | 0` : low(position, nodes);
  }

  /** A literal of these fields' values. */
  #literal(info, values) {
    if (this.#types.isUnwrapped(info)) return values[0];
    if (!info.areNamed) return `[${values.join(', ')}]`;
    const fields = info.fields.map(({ name }, i) => `${keyOf(name)}: ${values[i]}`);
    return `{ ${fields.join(', ')} }`;
  }

  /** A factory of a function that reads fields of which some have no constant size. */
  #fieldsFactory(info, wrap) {
    const calls = new Map();
    const lines = [];
    let start = 'at';
    let nodes = 1;
    const values = info.fields.map(({ type }, i) => {
      const size = this.#sizeOf(type);
      if (size > 0) {
        nodes += size;
        return this.#expression(type, start, nodes - size);
      }
      if (!calls.has(type)) calls.set(type, `read${calls.size}`);
      lines.push(`const at${i} = ${plus(start, nodes)};`);
      lines.push(`const after${i} = at${i} + u32[8 * at${i} + 4];`);
      start = `after${i}`;
      nodes = 0;
      return `${calls.get(type)}(at${i})`;
    });
    const made = wrap(this.#literal(info, values));
    const body = ['const { u32 } = records;', ...lines, `return ${made};`].join('\n');
    return `${readersOf(calls)}return (at) => { ${body} };`;
  }

  #listBody(info) {
    const size = this.#sizeOf(info.element);
    const calls = size > 0 ? new Map() : new Map([[info.element, 'read']]);
    const value = size > 0 ? this.#expression(info.element, 'next', 0) : 'read(next)';
    const step = size > 0 ? size : 'u32[8 * next + 4]';
    return `${readersOf(calls)}return (at) => { const { u32 } = records;
const values = [];
const count = u32[8 * at + 2];
for (let next = at + 1; values.length < count; next += ${step}) values.push(${value});
return values; };`;
  }

  /** Arms have functions of their own, which are generated when the first value has them. */
  #variantBody(info) {
    const held = this.#types.held(info);
    if (held !== undefined) return this.#optionBody(info, held);
    return `const arms = [];
return (at) => { const { u32 } = records;
const position = u32[8 * at + 3];
return (arms[position] ??= arm(${info.type}, position))(at); };`;
  }

  #optionBody(info, held) {
    const none = info.arms.findIndex(({ name }) => name === 'None');
    const size = this.#sizeOf(held);
    const calls = size > 0 ? new Map() : new Map([[held, 'read']]);
    const value = size > 0 ? this.#expression(held, 'at', 1) : 'read(at + 1)';
    return `${readersOf(calls)}return (at) => { const { u32 } = records;
return u32[8 * at + 3] === ${none} ? undefined : ${value}; };`;
  }

  #armBody(info, arm) {
    const type = JSON.stringify(arm.name);
    const index = arm.isAmbiguous ? `, index: ${arm.index}` : '';
    const wrap = (value) => `{ type: ${type}, value: ${value}${index} }`;
    if (arm.fields.length === 0) return `return (at) => (${wrap('undefined')});`;
    return this.#fieldsFactory(arm, wrap);
  }
}

/** The low 32 bits of the node that is so many after a position. */
function low(position, nodes) {
  return `u32[8 * ${position} + ${8 * nodes + 4}]`;
}

/** Declarations of the functions of other types, each generated when it is first called. */
function readersOf(calls) {
  const declared = [...calls].map(
    ([type, name]) => `let ${name} = (at) => { ${name} = met(${type}); return ${name}(at); };\n`,
  );
  return declared.join('');
}

module.exports = { Readers, isAllowed };
