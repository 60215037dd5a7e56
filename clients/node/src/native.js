'use strict';

/* The addon, and the numbers that it shares with JavaScript. `struct control` in native/native.h
 * has the same places. */

function load() {
  try {
    return require('../out/scaleview.node');
  } catch (cause) {
    const text = "scaleview's addon can't be loaded: `bash clients/node/build` makes it";
    throw new Error(text, { cause });
  }
}

const addon = load();

const BATCH = 32;
const control = new ArrayBuffer(80 + 4 * (BATCH + 2 * (BATCH + 1)));
const words = new Uint32Array(control);
const numbers = new Float64Array(control, 0, 10);

/** Positions in `words`. */
const SLOT = 0;
const TYPE = 1;
const DEPTH = 2;
const COUNT = 3;
const CODE = 4;
const FROM = 5;
const DONE = 6;
const WORDS = 20;
const NODES = WORDS + BATCH;
const POOLS = NODES + BATCH + 1;

/** Positions in `numbers`. */
const AT = 4;
const LENGTH = 5;
const POOL_LENGTH = 6;
const LIMIT = 7;
const MEMORY = 8;
const MEMORY_OF_A_BYTE = 9;

/** What the last call answered. */
function answer() {
  return { code: words[CODE], from: words[FROM], at: numbers[AT], length: numbers[LENGTH] };
}

module.exports = {
  addon, control, words, numbers, answer,
  BATCH, SLOT, TYPE, DEPTH, COUNT, CODE, FROM, DONE, WORDS, NODES, POOLS,
  AT, LENGTH, POOL_LENGTH, LIMIT, MEMORY, MEMORY_OF_A_BYTE,
};
