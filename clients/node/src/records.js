'use strict';

/* The buffers that the addon fills with the nodes of a value and their bytes. They are used again
 * from call to call, and never given away: what leaves is copied. */

const { Buffer } = require('node:buffer');
const { addon, control, words, numbers, AT, LENGTH, NODES, POOLS } = require('./native');
const { allocated, outOfMemory } = require('./errors');

const NODE_BYTES = 32;
const FIRST_NODES = 8192;
const FIRST_POOL = 65536;
const INPUT_ROOM = 65536;
/** Buffers with more bytes are dropped after a call. */
const MOST_KEPT = 8 << 20;
const MOST_POOL = 2 ** 32 - 1;
/** Bytes of up to this length are copied one by one. */
const SHORT = 64;
/** Texts of up to this length are looked at byte by byte, since most of them are ASCII. */
const SHORT_TEXT = 16;

const inputBuffer = new ArrayBuffer(INPUT_ROOM);
const input = new Uint8Array(inputBuffer);

/** The nodes of values as 32-bit and 64-bit integers, and their pool of bytes. */
const records = {
  u32: new Uint32Array(0),
  u64: new BigUint64Array(0),
  i64: new BigInt64Array(0),
  pool: new Uint8Array(0),
  text: Buffer.alloc(0),
  /** Where the bytes of the value at hand begin and end in the pool. */
  base: 0,
  end: 0,
  /** A copy of these bytes, which long runs of bytes share. */
  copy: undefined,
  /** Whether the buffers are larger than what is kept. */
  isLarge: false,
};

function resize(nodeCount, poolLength) {
  if (poolLength > MOST_POOL || nodeCount > MOST_POOL / 8) throw outOfMemory();
  const nodes = allocated(() => new ArrayBuffer(nodeCount * NODE_BYTES));
  const pool = allocated(() => new ArrayBuffer(poolLength));
  addon.attach(control, nodes, pool, inputBuffer);
  records.u32 = new Uint32Array(nodes);
  records.u64 = new BigUint64Array(nodes);
  records.i64 = new BigInt64Array(nodes);
  records.pool = new Uint8Array(pool);
  records.text = Buffer.from(pool);
  records.isLarge = nodes.byteLength + poolLength > MOST_KEPT;
}

resize(FIRST_NODES, FIRST_POOL);

/** Grows the buffers for the value that had no room. */
function grow() {
  const nodes = Math.max(numbers[LENGTH], records.u32.length / 8);
  resize(nodes, Math.max(numbers[AT], records.pool.length));
}

/** Gives back the memory of a large value. */
function shrink() {
  resize(FIRST_NODES, FIRST_POOL);
}

/** Turns to one of the values that were decoded, and returns where its nodes begin. */
function turnTo(item) {
  records.base = words[POOLS + item];
  records.end = words[POOLS + item + 1];
  records.copy = undefined;
  return words[NODES + item];
}

/** An unsigned integer of up to 128 bits. */
function wideAt(at) {
  const { u32, u64 } = records;
  const low = u64[4 * at + 2];
  if ((u32[8 * at + 6] | u32[8 * at + 7]) === 0) return low;
  return (u64[4 * at + 3] << 64n) | low;
}

/** A signed integer of up to 128 bits. */
function signedAt(at) {
  const high = records.i64[4 * at + 3];
  return (high << 64n) | records.u64[4 * at + 2];
}

/** An integer of 256 bits. */
function hugeAt(at, isSigned) {
  const start = records.base + records.u32[8 * at + 4];
  let number = 0n;
  for (let i = 3; i >= 0; i -= 1) {
    number = (number << 64n) | records.text.readBigUInt64LE(start + 8 * i);
  }
  return isSigned ? BigInt.asIntN(256, number) : number;
}

function textAt(at) {
  const start = records.base + records.u32[8 * at + 4];
  const end = start + records.u32[8 * at + 6];
  if (end - start > SHORT_TEXT) return records.text.toString('utf8', start, end);
  const { pool } = records;
  let made = '';
  for (let i = start; i < end; i += 1) {
    if (pool[i] > 127) return records.text.toString('utf8', start, end);
    made += String.fromCharCode(pool[i]);
  }
  return made;
}

function bytesAt(at) {
  const { base, pool, u32 } = records;
  const start = base + u32[8 * at + 4];
  const length = u32[8 * at + 6];
  if (length <= SHORT) return pool.slice(start, start + length);
  records.copy ??= pool.slice(base, records.end);
  return new Uint8Array(records.copy.buffer, start - base, length);
}

module.exports = {
  records, input, INPUT_ROOM, NODE_BYTES, grow, shrink, turnTo,
  wideAt, signedAt, hugeAt, textAt, bytesAt,
};
