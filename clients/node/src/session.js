'use strict';

const { addon, words, numbers, answer, CODE, LENGTH } = require('./native');
const { errorOf } = require('./errors');
const { unshared } = require('./arguments');
const { grow, turnTo } = require('./records');

const [MORE, NO_ROOM] = [1, 2];

/** A value in progress. Its memory is freed by `end`, or when it is collected. */
class Session {
  #external;
  #open;
  #type;
  #limits;

  constructor(open, type, limits) {
    this.#open = open;
    this.#type = type;
    this.#limits = limits;
    open.state(type, limits);
    this.#external = addon.start();
    if (words[CODE] !== 0) throw errorOf(answer(), { type });
  }

  /** The session, unless its registry is closed. */
  #opened() {
    if (this.#open.isClosed) throw new TypeError('the registry is closed');
    return this.#external;
  }

  /** Feeds a piece, and returns how many of its bytes end the value, or undefined. */
  feed(bytes, before = 0) {
    addon.feed(this.#opened(), unshared(bytes));
    if (words[CODE] > MORE) throw errorOf(answer(), { before });
    return words[CODE] === MORE ? undefined : numbers[LENGTH];
  }

  /** Ends the value and returns it. */
  value(before = 0) {
    addon.finish(this.#opened());
    if (words[CODE] === NO_ROOM) {
      grow();
      addon.finish(this.#external);
    }
    if (words[CODE] !== 0) throw errorOf(answer(), { before });
    return this.#open.valueAt(this.#type, turnTo(0));
  }

  /** Ends the value and returns its JSON. */
  json() {
    this.#open.state(this.#type, this.#limits);
    const text = addon.finishText(this.#opened());
    if (words[CODE] !== 0) throw errorOf(answer());
    return text;
  }

  /** The number of bytes that the library has taken. */
  taken() {
    addon.taken(this.#external);
    return numbers[LENGTH];
  }

  end() {
    addon.end(this.#external);
  }
}

/** Decodes the value that the first bytes spell, whatever follows them. */
function decodePrefix(open, type, bytes, limits) {
  const session = new Session(open, type, limits);
  try {
    const length = session.feed(bytes);
    return { value: session.value(), length };
  } finally {
    session.end();
  }
}

module.exports = { Session, decodePrefix };
