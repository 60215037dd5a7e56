'use strict';

/* An open registry: its slot in the addon, its types and the functions that make values. */

const {
  addon, words, numbers, answer, BATCH, SLOT, TYPE, DEPTH, COUNT, CODE, DONE, WORDS, AT,
  POOL_LENGTH, LIMIT, MEMORY, MEMORY_OF_A_BYTE,
} = require('./native');
const { errorOf, allocated } = require('./errors');
const { located } = require('./error_path');
const { bytesOf, unshared, lengthOf, MOST_ENCODED } = require('./arguments');
const { records, input, INPUT_ROOM, grow, shrink, turnTo } = require('./records');
const { Types } = require('./types');
const { Readers } = require('./generator');
const { Writer } = require('./writer');

const [NO_ROOM, UNKNOWN_TYPE] = [2, 201];
/** The flag of metadata whose names are read. */
const NAMES = 2;
/** The slot of a closed registry. */
const NO_SLOT = 0xffffffff;
/** The bytes that a node's value takes at most, besides those in the pool. */
const MOST_BYTES_OF_A_NODE = 17;
const CODES_OF_NODES = 400;

/** The error of opening a registry. A value's codes are then about what follows it in metadata. */
function openingError(found, before) {
  if (found.code < 300) return errorOf(found, { before });
  return errorOf(found, { part: 'registry', before });
}

/** The metadata in what a node answers to `Metadata_metadata_at_version`, or the bytes as they are. */
function unwrapped(bytes) {
  if (bytes.length === 0 || bytes[0] !== 1) return bytes;
  addon.opaque(unshared(bytes.subarray(1)));
  return words[CODE] === 0 ? bytes.subarray(1 + numbers[AT]) : bytes;
}

class Open {
  #external;

  constructor(bytes, flags, options) {
    const inner = flags & NAMES ? unwrapped(bytes) : bytes;
    const before = bytes.length - inner.length;
    this.#external = addon.open(unshared(inner), flags);
    const found = answer();
    if (found.code !== 0) throw openingError(found, before);
    this.slot = words[SLOT];
    this.version = found.from;
    this.end = found.at + before;
    this.types = new Types(this, found.length, options);
    this.readers = new Readers(this.types);
  }

  get isClosed() {
    return this.slot === NO_SLOT;
  }

  /** Closes the registry. Its memory is freed with its last session. */
  close() {
    if (this.isClosed) return;
    addon.close(this.#external);
    this.slot = NO_SLOT;
  }

  /** States which type and limits the next call is about. */
  state(type, limits) {
    words[SLOT] = this.slot;
    words[TYPE] = type;
    words[DEPTH] = limits.depth;
    numbers[LIMIT] = limits.limit;
    numbers[MEMORY] = limits.memory;
    numbers[MEMORY_OF_A_BYTE] = limits.memoryOfAByte;
  }

  /** The value of records that begin there. */
  valueAt(type, at) {
    const value = (this.readers.functions[type] ?? this.readers.of(type))(at);
    if (records.isLarge) shrink();
    return value;
  }

  decode(type, bytes, limits, facts) {
    const length = lengthOf(bytes);
    this.state(type, limits);
    words[COUNT] = 1;
    if (length <= INPUT_ROOM) {
      input.set(bytes);
      words[WORDS] = length;
      addon.decode();
    } else {
      addon.decode(unshared(bytes));
    }
    if (words[CODE] === 0) return this.valueAt(type, turnTo(0));
    if (words[CODE] !== NO_ROOM) {
      throw located(errorOf(answer(), { type, ...facts }), this, type, limits, bytes);
    }
    grow();
    return this.decode(type, bytes, limits, facts);
  }

  /** Decodes several values. Other calls may be made while the items are iterated over. */
  decodeMany(type, items, limits) {
    const values = [];
    const batch = [];
    for (const item of items) {
      batch.push(bytesOf(item));
      if (batch.length < BATCH) continue;
      this.#decodeBatch(type, batch, limits, values);
      batch.length = 0;
    }
    this.#decodeBatch(type, batch, limits, values);
    return values;
  }

  /** Appends the values of a batch. */
  #decodeBatch(type, batch, limits, values) {
    for (let first = 0; first < batch.length;) {
      const count = fillInput(batch, first);
      if (count === 0) {
        values.push(this.decode(type, batch[first], limits, { item: values.length }));
        first += 1;
      } else {
        first += this.#decodeFilled(type, batch, { first, count }, limits, values);
      }
    }
  }

  /** Appends the values of as many inputs as have room, and returns how many. */
  #decodeFilled(type, batch, { first, count }, limits, values) {
    this.state(type, limits);
    words[COUNT] = count;
    addon.decode();
    const done = words[DONE];
    const found = words[CODE] === 0 ? undefined : answer();
    if (found?.code === NO_ROOM && done === 0) grow();
    const read = this.readers.of(type, done);
    for (let i = 0; i < done; i += 1) values.push(read(turnTo(i)));
    if (records.isLarge) shrink();
    if (found === undefined || found.code === NO_ROOM) return done;
    const error = errorOf(found, { type, item: values.length });
    throw located(error, this, type, limits, batch[first + done]);
  }

  decodeJson(type, bytes, limits, facts) {
    this.state(type, limits);
    const text = addon.decodeText(unshared(bytes));
    if (words[CODE] !== 0) {
      throw located(errorOf(answer(), { type, ...facts }), this, type, limits, bytes);
    }
    return text;
  }

  /** Where the bytes of an opaque value begin, whose length stands before them. */
  opaque(type, bytes, facts) {
    addon.opaque(unshared(bytes));
    const found = type < this.types.count ? answer() : { code: UNKNOWN_TYPE };
    if (found.code !== 0) throw errorOf(found, { type, ...facts });
    return found.at;
  }

  encode(type, value, limits) {
    const memory = limits.memory + limits.memoryOfAByte * MOST_ENCODED;
    const bound = { ...limits, memory, memoryOfAByte: 0 };
    const writer = new Writer(this.types, bound);
    if (type < this.types.count) writer.write(type, value);
    let room = writer.length + MOST_BYTES_OF_A_NODE * writer.count;
    for (;;) {
      const out = allocated(() => new Uint8Array(room));
      this.state(type, bound);
      words[COUNT] = writer.count;
      numbers[POOL_LENGTH] = writer.length;
      addon.encode(writer.nodes, writer.pool, out);
      const found = answer();
      if (found.code === 0) return out.slice(0, found.length);
      if (found.code !== NO_ROOM) throw encodingError(found, writer, type);
      room = found.length;
    }
  }
}

function encodingError(found, writer, type) {
  if (found.code < CODES_OF_NODES) return errorOf(found, { type });
  const { cut: path } = writer;
  return errorOf(found, { path });
}

/** Copies inputs to the front of the addon's, and returns how many have room there. */
function fillInput(batch, first) {
  let used = 0;
  let count = 0;
  while (first + count < batch.length) {
    const bytes = batch[first + count];
    const length = lengthOf(bytes);
    if (used + length > INPUT_ROOM) break;
    input.set(bytes, used);
    words[WORDS + count] = length;
    used += length;
    count += 1;
  }
  return count;
}

module.exports = { Open };
