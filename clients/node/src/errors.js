'use strict';

const { addon } = require('./native');

const OUT_OF_MEMORY = 3;
const LIMIT_OUT_OF_RANGE = 202;
const UNKNOWN_NAME = 204;

const reasons = new Map();

function reasonOf(code) {
  if (!reasons.has(code)) reasons.set(code, addon.reason(code));
  return reasons.get(code);
}

/** The part of the input that a code is about. */
function partOf(code) {
  if (code === 112) return 'check';
  if (code === LIMIT_OUT_OF_RANGE) return 'limits';
  if (code > 100 && code < 200) return 'registry';
  return code >= 300 ? 'value' : 'type';
}

function messageOf(name, facts) {
  const { part, label, toType, fromType, place, path, item } = facts;
  let text = path === undefined ? `${part}: ${name}` : `${path}: ${name}`;
  if (label !== undefined) text += ` ${JSON.stringify(label)}`;
  if (toType !== undefined) text += part === 'registry' ? ` to type ${toType}` : ` ${toType}`;
  if (fromType !== undefined) text += ` in type ${fromType}`;
  if (place !== undefined) text += ` at ${place}`;
  return item === undefined ? text : `${text} in item ${item}`;
}

/** Bytes, a type, a name, a limit or a value that is rejected, or an allocation that failed. */
class ScaleviewError extends Error {
  constructor(code, name, facts, message = messageOf(name, facts)) {
    super(message);
    Object.defineProperty(this, 'name', {
      value: name, writable: true, configurable: true, enumerable: false,
    });
    this.code = code;
    Object.assign(this, facts);
  }
}

function outOfMemory(text = 'an allocation failed, or the budget of memory is reached') {
  return new ScaleviewError('ERR_OUT_OF_MEMORY', 'OutOfMemory', {}, text);
}

/** The error of what the library answered. */
function errorOf(answer, { part = partOf(answer.code), before = 0, type, ...facts } = {}) {
  const { code, from, at } = answer;
  if (code === OUT_OF_MEMORY) return outOfMemory();
  if (code === 5) return new TypeError('the registry is closed');
  const about = { part, ...facts };
  if (code === 112) Object.assign(about, { toType: at, fromType: from });
  else if (code === 113) about.toType = from;
  else if (code === 201) about.toType = type;
  if (code !== 112 && (code < 200 || (code >= 300 && code < 400))) about.place = at + before;
  return new ScaleviewError(code, reasonOf(code), about);
}

function unknownName(label) {
  return new ScaleviewError(UNKNOWN_NAME, reasonOf(UNKNOWN_NAME), { part: 'type', label });
}

function limitOutOfRange() {
  const facts = { part: 'limits' };
  return new ScaleviewError(LIMIT_OUT_OF_RANGE, reasonOf(LIMIT_OUT_OF_RANGE), facts);
}

/** Runs what allocates buffers, whose failure V8 reports by a RangeError. */
function allocated(allocate) {
  try {
    return allocate();
  } catch (error) {
    if (error instanceof RangeError) throw outOfMemory();
    throw error;
  }
}

module.exports = {
  ScaleviewError, errorOf, unknownName, limitOutOfRange, outOfMemory, allocated, reasonOf,
};
