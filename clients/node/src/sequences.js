'use strict';

/** A sequence of bits: `length`, `at(i)` and iteration. It doesn't change. */
class Bits {
  #bits;

  constructor(bits = []) {
    const given = Array.from(bits);
    if (!given.every((bit) => typeof bit === 'boolean')) throw new TypeError('expected booleans');
    this.#bits = Uint8Array.from(given, Number);
  }

  /** The bits whose words begin at this place of a pool. */
  static read(pool, start, length, form) {
    const made = new Bits();
    made.#bits = new Uint8Array(length);
    for (let bit = 0; bit < length; bit += 1) {
      const place = placeOfBit(form, bit);
      made.#bits[bit] = (pool[start + (place >>> 3)] >> (place & 7)) & 1;
    }
    return made;
  }

  get length() {
    return this.#bits.length;
  }

  /** The bit at a position, or counted from the end if it is negative, or undefined. */
  at(position) {
    const bit = this.#bits.at(position);
    return bit === undefined ? undefined : bit === 1;
  }

  *[Symbol.iterator]() {
    for (const bit of this.#bits) yield bit === 1;
  }

  /** `0b` and each bit in order, as in JSON. */
  toString() {
    return `0b${this.#bits.join('')}`;
  }

  toJSON() {
    return this.toString();
  }

  [Symbol.for('nodejs.util.inspect.custom')]() {
    return `Bits(${this.length}) ${this}`;
  }
}

/** Where a bit is, counted from the lowest bit of the first byte. */
function placeOfBit({ width, isMsb0 }, bit) {
  if (!isMsb0) return bit;
  const inWord = bit % width;
  return bit - inWord + (width - 1 - inWord);
}

/** A sequence of `length` values that take no bytes, without the memory of an array. */
class Empties {
  #length;

  constructor(length) {
    if (!Number.isInteger(length) || length < 0 || length > 0xffffffff) {
      throw new RangeError('length has to be an integer from 0 to 2 ** 32 - 1');
    }
    this.#length = length;
  }

  get length() {
    return this.#length;
  }

  /** null at each position, and undefined elsewhere. */
  at(position) {
    const from = Math.trunc(position) || 0;
    return from < this.#length && from >= -this.#length ? null : undefined;
  }

  *[Symbol.iterator]() {
    for (let i = 0; i < this.#length; i += 1) yield null;
  }

  toJSON() {
    return { count: this.#length };
  }

  [Symbol.for('nodejs.util.inspect.custom')]() {
    return `Empties(${this.#length})`;
  }
}

module.exports = { Bits, Empties, placeOfBit };
