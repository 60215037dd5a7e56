'use strict';

/* Values whose bytes come in pieces. */

const { Transform } = require('node:stream');
const { bytesOf, limitsOfUnknown } = require('./arguments');
const { openOf, idOf } = require('./registry');
const { Session } = require('./session');

/** A value whose bytes are written in pieces. */
class Decoder {
  #session;

  constructor(registry, type, options) {
    this.#session = new Session(openOf(registry), idOf(registry, type), limitsOfUnknown(options));
  }

  #opened() {
    if (this.#session === undefined) throw new TypeError('the decoder is closed');
    return this.#session;
  }

  /** The number of bytes that were taken. */
  get taken() {
    return this.#opened().taken();
  }

  /** Takes a piece, and returns how many of its bytes end the value, or undefined before that. */
  write(data) {
    return this.#opened().feed(bytesOf(data));
  }

  /** Ends the value and returns it. */
  end() {
    return this.#opened().value();
  }

  /** Ends the value and returns its JSON. */
  endJson() {
    return this.#opened().json();
  }

  /** Frees its memory at once. */
  close() {
    this.#session?.end();
    this.#session = undefined;
  }

  [Symbol.dispose ?? Symbol.for('nodejs.dispose')]() {
    this.close();
  }
}

/** A stream of bytes to the values that they spell one after another. */
class DecoderStream extends Transform {
  #open;
  #type;
  #limits;
  #session;
  /** Where the value in progress begins, and how many bytes it has so far. */
  #before = 0;
  #length = 0;

  constructor(registry, type, options) {
    super({ readableObjectMode: true });
    this.#open = openOf(registry);
    this.#type = idOf(registry, type);
    this.#limits = limitsOfUnknown(options);
    if (this.#open.types.of(this.#type).valueClass !== 'Empty') return;
    throw new TypeError('a stream of values that take no bytes would have no end');
  }

  /** Takes the first bytes of a piece, of one value, and returns how many. */
  #take(bytes) {
    this.#session ??= new Session(this.#open, this.#type, this.#limits);
    const used = this.#session.feed(bytes, this.#before);
    if (used === undefined) {
      this.#length += bytes.length;
      return bytes.length;
    }
    const value = this.#session.value(this.#before);
    this.#free();
    this.#before += this.#length + used;
    this.#length = 0;
    this.push(value);
    return used;
  }

  #free() {
    this.#session?.end();
    this.#session = undefined;
  }

  _transform(chunk, encoding, done) {
    try {
      let rest = chunk;
      while (rest.length > 0) rest = rest.subarray(this.#take(rest));
      done();
    } catch (error) {
      done(error);
    }
  }

  _flush(done) {
    try {
      this.#session?.value(this.#before);
      done();
    } catch (error) {
      done(error);
    }
  }

  _destroy(error, done) {
    this.#free();
    done(error);
  }
}

module.exports = { Decoder, DecoderStream };
