'use strict';

/* Makes nodes of JavaScript's values, which the library encodes. */

const { types: kinds } = require('node:util');
const { Buffer } = require('node:buffer');
const { Bits, Empties, placeOfBit } = require('./sequences');
const { PRIMITIVES } = require('./types');
const { NODE_BYTES } = require('./records');
const { outOfMemory, allocated } = require('./errors');
const { lengthOf } = require('./arguments');

const [EMPTY, BOOL, CHAR, UNSIGNED, SIGNED, COMPACT] = [0, 1, 2, 3, 4, 5];
const [COUNT, TEXT, BYTES, WIDE, FIELDS, ARM, LIST, BITS] = [6, 7, 8, 9, 10, 11, 12, 13];
const [U8, U256, I8, I256] = ['u8', 'u256', 'i8', 'i256'].map((name) => PRIMITIVES.indexOf(name));

/** The library allocates at least as many bytes for a node. */
const LEAST_MEMORY = 24;
const MOST_LENGTH = 2 ** 32 - 1;

/** Ends the writing at a part that the library rejects. */
class Cut {}

function shown(value) {
  if (value === null) return 'null';
  if (Array.isArray(value)) return 'an array';
  return typeof value === 'object' ? 'an object' : typeof value;
}

/** The part of a path that a level adds. */
function partOf({ arm, fields, isNamed, isHeld, at }) {
  const before = arm === undefined ? '' : `.${arm}`;
  if (isHeld || at === 0) return before;
  return before + (isNamed ? `.${fields[at - 1].name}` : `[${at - 1}]`);
}

/** Nodes and a pool that grow. */
class Writer {
  #nodes = new ArrayBuffer(64 * NODE_BYTES);
  #u32 = new Uint32Array(this.#nodes);
  #u64 = new BigUint64Array(this.#nodes);
  /** The values whose children are being written, and the variant whose fields are looked at. */
  #levels = [];
  #arm;
  pool = new Uint8Array(1024);
  count = 0;
  length = 0;
  /** Where the library is left to reject a part. */
  cut = undefined;

  constructor(types, limits) {
    this.types = types;
    this.limits = limits;
  }

  get nodes() {
    return new Uint8Array(this.#nodes);
  }

  /** Where the part is that is being written, such as "value.list[3].name". */
  get path() {
    const arm = this.#arm === undefined ? '' : `.${this.#arm}`;
    return `value${this.#levels.map(partOf).join('')}${arm}`;
  }

  /** Writes a value, as far as the library takes it. */
  write(type, value) {
    try {
      this.#put(type, value);
      while (this.#levels.length > 0) this.#writeNext(this.#levels.at(-1));
    } catch (error) {
      if (!(error instanceof Cut)) throw error;
    }
  }

  /** Writes the next child of a value. */
  #writeNext(level) {
    const { fields, element, source, isNamed, isHeld, at } = level;
    if (at === level.count) {
      this.#levels.pop();
      return;
    }
    level.at += 1;
    const type = fields === undefined ? element : fields[at].type;
    if (isHeld) this.#put(type, source);
    else this.#put(type, source[isNamed ? fields[at].name : at]);
  }

  #expected(what, value) {
    return new TypeError(`${this.path}: expected ${what}, not ${shown(value)}`);
  }

  #checkBudget(nodes, bytes) {
    const least = LEAST_MEMORY * (this.count + nodes) + this.length + bytes;
    if (this.limits.memory > 0 && least > this.limits.memory) throw outOfMemory();
  }

  #add(kind, type, children = 0, arm = 0) {
    this.#checkBudget(1, 0);
    const at = this.count;
    if (8 * at === this.#u32.length) this.#growNodes();
    this.#u32.set([kind, type, children, arm, 0, 0, 0, 0], 8 * at);
    this.count += 1;
    return at;
  }

  /** Adds a node with a number of up to 32 bits. */
  #addNumber(kind, type, number) {
    const at = this.#add(kind, type);
    this.#u32[8 * at + 4] = number;
  }

  #growNodes() {
    const old = this.#u32;
    this.#nodes = allocated(() => new ArrayBuffer(2 * old.byteLength));
    this.#u32 = new Uint32Array(this.#nodes);
    this.#u64 = new BigUint64Array(this.#nodes);
    this.#u32.set(old);
  }

  /** Adds a node of bytes, which the caller writes to the part of the pool that this returns. */
  #addBytes(kind, type, length, high = length) {
    this.#checkBudget(1, length);
    if (this.length + length > this.pool.length) {
      const pool = allocated(() => new Uint8Array(2 * (this.length + length)));
      pool.set(this.pool.subarray(0, this.length));
      this.pool = pool;
    }
    const at = this.#add(kind, type);
    const start = this.length;
    this.#u64[4 * at + 2] = BigInt(start);
    this.#u64[4 * at + 3] = BigInt(high);
    this.length += length;
    return this.pool.subarray(start, this.length).fill(0);
  }

  /** Adds a node that the library rejects, and ends. */
  #reject(kind, type) {
    this.#add(kind, type);
    this.cut = this.path;
    throw new Cut();
  }

  #put(type, value) {
    if (this.#levels.length > this.limits.depth) this.#reject(EMPTY, type);
    const info = this.types.of(type);
    if (info.valueClass === 'NoValue') this.#reject(EMPTY, type);
    if (info.valueClass === 'Empty') {
      if (value !== null) throw this.#expected('null', value);
      this.#add(EMPTY, type);
      return;
    }
    switch (info.kind) {
      case 'primitive': this.#putPrimitive(type, info.primitive, value); break;
      case 'compact': this.#putCompact(type, info, value); break;
      case 'variant': this.#putVariant(info, value); break;
      case 'bitsequence': this.#putBits(type, info, value); break;
      case 'sequence': case 'array': this.#putRun(info, value); break;
      default: this.#putFields(FIELDS, type, info, value, 0);
    }
  }

  #putPrimitive(type, primitive, value) {
    const name = PRIMITIVES[primitive];
    if (name === 'bool') {
      if (typeof value !== 'boolean') throw this.#expected('a boolean', value);
      this.#addNumber(BOOL, type, Number(value));
    } else if (name === 'char') {
      this.#putChar(type, value);
    } else if (name === 'str') {
      if (typeof value !== 'string') throw this.#expected('a string', value);
      if (!value.isWellFormed()) throw new TypeError(`${this.path}: the text has half a surrogate`);
      const bytes = Buffer.from(value);
      this.#addBytes(TEXT, type, bytes.length).set(bytes);
    } else {
      this.#putInteger(type, primitive, primitive < I8 ? UNSIGNED : SIGNED, value);
    }
  }

  #putChar(type, value) {
    const code = typeof value === 'string' ? value.codePointAt(0) : undefined;
    if (code === undefined || String.fromCodePoint(code) !== value || !value.isWellFormed()) {
      throw this.#expected('a string of one character', value);
    }
    this.#addNumber(CHAR, type, code);
  }

  #putCompact(type, { target }, value) {
    if (target === undefined) this.#reject(COMPACT, type);
    this.#putInteger(type, target, COMPACT, value);
  }

  #integerOf(primitive, value) {
    const isInteger = typeof value === 'bigint' || Number.isSafeInteger(value);
    if (!isInteger) throw this.#expected('an integer', value);
    const isSigned = primitive >= I8;
    const width = 8 << (primitive - (isSigned ? I8 : U8));
    const number = BigInt(value);
    const wrapped = isSigned ? BigInt.asIntN(width, number) : BigInt.asUintN(width, number);
    if (wrapped === number) return number;
    const name = PRIMITIVES[primitive];
    throw new RangeError(`${this.path}: the number is out of range of ${name}`);
  }

  #putInteger(type, primitive, kind, value) {
    const number = this.#integerOf(primitive, value);
    if (primitive === U256 || primitive === I256) {
      const bytes = this.#addBytes(WIDE, type, 32);
      const view = new DataView(bytes.buffer, bytes.byteOffset, 32);
      for (let i = 0n; i < 4n; i += 1n) view.setBigUint64(8 * Number(i), number >> (64n * i), true);
      return;
    }
    const at = this.#add(kind, type);
    this.#u64[4 * at + 2] = number;
    this.#u64[4 * at + 3] = number >> 64n;
  }

  #putBits(type, { form }, value) {
    if (form === undefined) this.#reject(EMPTY, type);
    const isList = value instanceof Bits || Array.isArray(value);
    if (!isList) throw this.#expected('Bits or an array of booleans', value);
    const bits = value instanceof Bits ? value : new Bits(value);
    if (bits.length > MOST_LENGTH) throw new RangeError(`${this.path}: too many items`);
    const length = (form.width / 8) * Math.ceil(bits.length / form.width);
    const words = this.#addBytes(BITS, type, length, bits.length);
    let position = 0;
    for (const bit of bits) {
      const place = placeOfBit(form, position);
      if (bit) words[place >>> 3] |= 1 << (place & 7);
      position += 1;
    }
  }

  #putRun(info, value) {
    if (this.types.isBytes(info)) this.#putBytes(info, value);
    else if (this.types.of(info.element).valueClass === 'Empty') this.#putCount(info, value);
    else this.#putList(info, value);
  }

  #checkLength({ kind, length }, given) {
    if (kind === 'array' && given !== length) {
      throw new TypeError(`${this.path}: expected ${length} items, not ${given}`);
    }
    if (given > MOST_LENGTH) throw new RangeError(`${this.path}: too many items`);
  }

  #putBytes(info, value) {
    if (!kinds.isUint8Array(value)) throw this.#expected('a Uint8Array', value);
    const length = lengthOf(value);
    this.#checkLength(info, length);
    this.#addBytes(BYTES, info.type, length).set(value);
  }

  #putCount({ type }, value) {
    const isCount = value instanceof Empties
      || (Array.isArray(value) && value.every((item) => item === null));
    if (!isCount) throw this.#expected('Empties or an array of null', value);
    this.#addNumber(COUNT, type, value.length);
  }

  #putList(info, value) {
    if (!Array.isArray(value)) throw this.#expected('an array', value);
    const { length } = value;
    this.#checkLength(info, length);
    this.#checkBudget(length, 0);
    this.#add(LIST, info.type, length);
    this.#levels.push({ source: value, element: info.element, count: length, at: 0 });
  }

  /** Adds the node of fields, whose values are written next. */
  #putFields(kind, type, info, value, position) {
    const { fields, areNamed: isNamed } = info;
    const isHeld = this.types.isUnwrapped(info);
    if (!isHeld && isNamed) this.#checkNamed(fields, value);
    else if (!isHeld) this.#checkUnnamed(fields, value);
    this.#add(kind, type, fields.length, position);
    const arm = this.#arm;
    this.#levels.push({ source: value, fields, isNamed, isHeld, arm, count: fields.length, at: 0 });
  }

  #checkNamed(fields, value) {
    if (value === null || typeof value !== 'object') throw this.#expected('an object', value);
    for (const { name } of fields) {
      if (Object.hasOwn(value, name)) continue;
      throw new TypeError(`${this.path}: the field ${JSON.stringify(name)} is missing`);
    }
    const names = Object.keys(value);
    if (names.length > fields.length) {
      const other = names.find((name) => !fields.some((field) => field.name === name));
      throw new TypeError(`${this.path}: there is no field ${JSON.stringify(other)}`);
    }
  }

  #checkUnnamed(fields, value) {
    if (!Array.isArray(value)) throw this.#expected('an array', value);
    if (value.length !== fields.length) {
      throw new TypeError(`${this.path}: expected ${fields.length} items, not ${value.length}`);
    }
  }

  #putVariant(info, value) {
    if (this.types.held(info) !== undefined) {
      this.#putOption(info, value);
      return;
    }
    if (value === null || typeof value !== 'object' || typeof value.type !== 'string') {
      throw this.#expected('an object with a type', value);
    }
    const arm = this.#armOf(info, value.type, value.index);
    const fields = value.value;
    this.#arm = arm.name;
    if (arm.fields.length > 0) this.#putFields(ARM, info.type, arm, fields, arm.position);
    else this.#putNothing(info.type, arm.position, fields);
    this.#arm = undefined;
  }

  #putNothing(type, position, value) {
    const isNothing = value === undefined || (Array.isArray(value) && value.length === 0);
    if (!isNothing) throw this.#expected('no value', value);
    this.#add(ARM, type, 0, position);
  }

  #armOf({ arms }, name, index) {
    const named = arms.filter((arm) => arm.name === name);
    const found = index === undefined ? named[0] : named.find((arm) => arm.index === index);
    if (found !== undefined) return found;
    const which = index === undefined ? '' : ` of index ${index}`;
    throw new TypeError(`${this.path}: there is no variant ${JSON.stringify(name)}${which}`);
  }

  #putOption(info, value) {
    const name = value === undefined ? 'None' : 'Some';
    const { position, fields } = info.arms.find((arm) => arm.name === name);
    this.#add(ARM, info.type, fields.length, position);
    this.#levels.push({ source: value, fields, isHeld: true, count: fields.length, at: 0 });
  }
}

module.exports = { Writer };
