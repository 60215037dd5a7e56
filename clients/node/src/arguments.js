'use strict';

const { Buffer } = require('node:buffer');
const { types } = require('node:util');
const { addon } = require('./native');
const { ScaleviewError, limitOutOfRange, allocated } = require('./errors');

const DEPTH = 64;
const MOST_DEPTH = 1024;
const LIMIT = 2 ** 24;
/** The bytes that the default budget of `encode` is for. */
const MOST_ENCODED = LIMIT;
const MOST_LIMIT = 2 ** 40;
const MEMORY = 2 ** 26;
const MEMORY_OF_A_BYTE = 64;
const MOST_MEMORY = Number.MAX_SAFE_INTEGER;

const typedArray = Object.getPrototypeOf(Uint8Array.prototype);
const lengthGetter = Object.getOwnPropertyDescriptor(typedArray, 'length').get;
const bufferGetter = Object.getOwnPropertyDescriptor(typedArray, 'buffer').get;


/** The limits where no options are given. */
const DEFAULTS = {
  depth: DEPTH, limit: LIMIT, memory: MEMORY, memoryOfAByte: MEMORY_OF_A_BYTE, opaque: false,
};

function numberOf(name, value, most) {
  if (!Number.isInteger(value) || value < 0) {
    throw new TypeError(`${name} has to be an integer from 0 to ${most}`);
  }
  if (value > most) throw limitOutOfRange();
  return value;
}

function memoryOf(memory) {
  if (memory === null) return { memory: 0, memoryOfAByte: 0 };
  return { memory: Math.max(numberOf('memory', memory, MOST_MEMORY), 1), memoryOfAByte: 0 };
}

/** The limits that the options of a call state. */
function limitsOf(options) {
  if (options === undefined) return DEFAULTS;
  if (options === null || typeof options !== 'object') {
    throw new TypeError('options have to be an object');
  }
  const { depth = DEPTH, bytes = LIMIT, memory, opaque = false } = options;
  if (typeof opaque !== 'boolean') throw new TypeError('opaque has to be a boolean');
  const limits = {
    depth: numberOf('depth', depth, MOST_DEPTH), limit: numberOf('bytes', bytes, MOST_LIMIT),
    memory: MEMORY, memoryOfAByte: MEMORY_OF_A_BYTE, opaque,
  };
  return memory === undefined ? limits : Object.assign(limits, memoryOf(memory));
}

/** The same for a value whose length isn't known: the limit of bytes stands for it. */
function limitsOfUnknown(options) {
  const limits = limitsOf(options);
  const { limit, memory, memoryOfAByte } = limits;
  return { ...limits, memory: memory + memoryOfAByte * limit, memoryOfAByte: 0 };
}

function wrongText(name, part, place) {
  return new ScaleviewError(0, name, { part, place });
}

/** The bytes that hexadecimal digits spell, with or without 0x before and a line end after them. */
function bytesOfText(text, part) {
  const start = text.startsWith('0x') ? 2 : 0;
  const digits = text.slice(start).replace(/\r?\n$/, '');
  if (digits.length % 2 === 1) throw wrongText('OddHex', part, start + digits.length);
  const wrong = digits.search(/[^0-9A-Fa-f]/);
  if (wrong >= 0) throw wrongText('BadHex', part, start + wrong);
  return allocated(() => new Uint8Array(Buffer.from(digits, 'hex')));
}

/** The length of a Uint8Array, whatever its own properties say. Detached ones are rejected. */
function lengthOf(bytes) {
  const length = lengthGetter.call(bytes);
  if (length === 0) checkAttached(bytes);
  return length;
}

/** Rejects bytes that were given away, such as to another thread. */
function checkAttached(bytes) {
  const buffer = bufferGetter.call(bytes);
  if (types.isArrayBuffer(buffer) && addon.isDetached(buffer)) {
    throw new TypeError('the bytes are detached');
  }
}

/** Bytes of an argument: a Uint8Array, such as a Buffer, or text of hexadecimal digits. */
function bytesOf(data, part = 'value') {
  if (types.isUint8Array(data)) return data;
  if (typeof data === 'string') return bytesOfText(data, part);
  throw new TypeError('expected a Uint8Array or text of hexadecimal digits');
}

/** Bytes in memory that no other thread changes: those that threads share are copied. */
function unshared(bytes) {
  const length = lengthOf(bytes);
  if (!types.isSharedArrayBuffer(bufferGetter.call(bytes))) return bytes;
  return allocated(() => {
    const copy = new Uint8Array(length);
    copy.set(bytes);
    return copy;
  });
}

/** The UTF-8 of a name, or undefined if it is no text of Unicode. */
function utf8Of(name) {
  if (typeof name !== 'string') throw new TypeError('a name has to be a string');
  return name.isWellFormed() ? new Uint8Array(Buffer.from(name)) : undefined;
}

module.exports = { limitsOf, limitsOfUnknown, bytesOf, unshared, lengthOf, utf8Of, MOST_ENCODED };
