'use strict';

/* Makes values of the records by going through them. It is always there; generated functions make
 * the same values. A node is followed by its subtree, whose size stands in it, so each function
 * needs only the node's position. */

const { Bits, Empties } = require('./sequences');
const { PRIMITIVES } = require('./types');
const { records, wideAt, signedAt, hugeAt, textAt, bytesAt } = require('./records');

const [BOOL, CHAR, UNSIGNED, SIGNED, COMPACT] = [1, 2, 3, 4, 5];
const [COUNT, TEXT, BYTES, WIDE, FIELDS, ARM, LIST, BITS] = [6, 7, 8, 9, 10, 11, 12, 13];
const [U32, I8, I32, I256] = ['u32', 'i8', 'i32', 'i256'].map((name) => PRIMITIVES.indexOf(name));

/** Whether integers of a primitive are numbers, and otherwise bigints. */
function isNumber(primitive) {
  return primitive <= U32 || (primitive >= I8 && primitive <= I32);
}

/** The position after the subtree of a node. */
function after(at) {
  const { u32 } = records;
  const kind = u32[8 * at];
  return kind >= FIELDS && kind <= LIST ? at + u32[8 * at + 4] : at + 1;
}

function integerAt(types, at) {
  const { u32 } = records;
  const info = types.of(u32[8 * at + 1]);
  const primitive = u32[8 * at] === COMPACT ? info.target : info.primitive;
  if (u32[8 * at] === SIGNED) return isNumber(primitive) ? u32[8 * at + 4] | 0 : signedAt(at);
  return isNumber(primitive) ? u32[8 * at + 4] : wideAt(at);
}

function bitsAt(types, at) {
  const { u32, pool, base } = records;
  const { form } = types.of(u32[8 * at + 1]);
  return Bits.read(pool, base + u32[8 * at + 4], u32[8 * at + 6], form);
}

function childrenOf(types, at) {
  const children = [];
  const count = records.u32[8 * at + 2];
  for (let next = at + 1; children.length < count; next = after(next)) {
    children.push(valueAt(types, next));
  }
  return children;
}

/** Defines a field whatever its name is, such as `__proto__`, which an assignment would not. */
function defineField(object, name, value) {
  const enumerable = true;
  const field = { __proto__: null, value, writable: true, enumerable, configurable: true };
  Object.defineProperty(object, name, field);
}

function fieldsAt(types, at, info) {
  const values = childrenOf(types, at);
  if (types.isUnwrapped(info)) return values[0];
  if (!info.areNamed) return values;
  const made = {};
  for (let i = 0; i < values.length; i += 1) defineField(made, info.fields[i].name, values[i]);
  return made;
}

function armAt(types, at) {
  const { u32 } = records;
  const info = types.of(u32[8 * at + 1]);
  const arm = info.arms[u32[8 * at + 3]];
  if (types.held(info) !== undefined) {
    return arm.fields.length === 0 ? undefined : valueAt(types, at + 1);
  }
  const value = arm.fields.length === 0 ? undefined : fieldsAt(types, at, arm);
  if (arm.isAmbiguous) return { type: arm.name, value, index: arm.index };
  return { type: arm.name, value };
}

/** The value of the node at a position. */
function valueAt(types, at) {
  const { u32 } = records;
  switch (u32[8 * at]) {
    case BOOL: return u32[8 * at + 4] === 1;
    case CHAR: return String.fromCodePoint(u32[8 * at + 4]);
    case UNSIGNED: case SIGNED: case COMPACT: return integerAt(types, at);
    case COUNT: return new Empties(u32[8 * at + 4]);
    case TEXT: return textAt(at);
    case BYTES: return bytesAt(at);
    case WIDE: return hugeAt(at, types.of(u32[8 * at + 1]).primitive === I256);
    case FIELDS: return fieldsAt(types, at, types.of(u32[8 * at + 1]));
    case ARM: return armAt(types, at);
    case LIST: return childrenOf(types, at);
    case BITS: return bitsAt(types, at);
    default: return null;
  }
}

module.exports = { valueAt, after, isNumber, bitsAt, I256 };
