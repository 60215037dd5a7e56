'use strict';

/* A chain's metadata: what it names, and the values by these names. */

const { addon, words, numbers, answer, CODE, FROM, AT, LENGTH, SLOT } = require('./native');
const { errorOf, unknownName, allocated } = require('./errors');
const { utf8Of } = require('./arguments');
const { described, NAME, Type } = require('./types');
const { Registry, openOf } = require('./registry');

const UNKNOWN_NAME = 204;
const NO_ROOM = 2;

/** A type by the name that metadata gives to it, such as "result:Core.version". */
class Named extends Type {
  constructor(metadata, id, name, hasBytes) {
    super(metadata, openOf(metadata).types, id);
    this.name = name;
    /** Whether the metadata has bytes for it. */
    this.hasBytes = hasBytes;
  }

  /** The bytes that the metadata has for it, which need not be a value. */
  get bytes() {
    const name = utf8Of(this.name);
    let out = new Uint8Array(0);
    for (;;) {
      words[SLOT] = openOf(this.registry).slot;
      addon.nameBytes(name, out);
      if (words[CODE] !== NO_ROOM) break;
      out = allocated(() => new Uint8Array(numbers[LENGTH]));
    }
    if (words[CODE] !== 0) throw errorOf(answer(), { label: this.name });
    return out;
  }

  /** The value that the metadata has for it. */
  value(options) {
    return this.decode(this.bytes, options);
  }
}

/** A storage entry, which is the type of its values. */
class StorageEntry extends Named {
  /** The type of its keys. */
  get key() {
    return this.registry.typeOf(`key:${this.name.slice('storage:'.length)}`);
  }

  /** Decodes a key of it to an object. */
  decodeKey(bytes, options) {
    return this.key.decode(bytes, options);
  }

  /** The value that an absent one stands for. */
  default(options) {
    return this.value(options);
  }
}

/** What metadata names by one word and a colon, by the rest of each name. */
class Names {
  #metadata;
  #word;
  #make;

  constructor(metadata, word, make) {
    this.#metadata = metadata;
    this.#word = word;
    this.#make = make;
  }

  #whole(name) {
    if (typeof name !== 'string') throw new TypeError('a name has to be a string');
    return this.#word + name;
  }

  has(name) {
    return this.#metadata.hasName(this.#whole(name));
  }

  /** What has the name, or throws UnknownName. */
  get(name) {
    return this.#make(this.#whole(name), name);
  }

  *keys() {
    for (const { name } of this.#metadata.names()) {
      if (name.startsWith(this.#word)) yield name.slice(this.#word.length);
    }
  }

  [Symbol.iterator]() {
    return this.keys();
  }

  get size() {
    return [...this.keys()].length;
  }
}

/** A chain's metadata of version 14 or 15, with the names that it gives to types. */
class Metadata extends Registry {
  #found = new Map();

  get hasNames() {
    return true;
  }

  #lookUp(name) {
    let found = this.#found.get(name);
    if (found !== undefined) return found;
    const bytes = utf8Of(name);
    if (bytes === undefined) throw unknownName(name);
    words[SLOT] = openOf(this).slot;
    addon.name(bytes);
    if (words[CODE] !== 0) throw errorOf(answer(), { label: name });
    found = { id: words[FROM], hasBytes: numbers[AT] === 1 };
    this.#found.set(name, found);
    return found;
  }

  hasName(name) {
    try {
      this.#lookUp(name);
      return true;
    } catch (error) {
      if (error.code === UNKNOWN_NAME) return false;
      throw error;
    }
  }

  /** The position of the type with this name, or else with this path. */
  idOfName(name) {
    return this.hasName(name) ? this.#lookUp(name).id : super.idOfName(name);
  }

  /** The type of a name as a whole, such as "calls:Balances" or "event". */
  typeOf(name) {
    const { id, hasBytes } = this.#lookUp(name);
    return new Named(this, id, name, hasBytes);
  }

  /** Iterates over the types that have names, in the order of the metadata. */
  *names() {
    for (let index = 0; ; index += 1) {
      const name = this.#nameAt(index);
      if (name === undefined) return;
      yield this.typeOf(name);
    }
  }

  #nameAt(index) {
    try {
      return described(openOf(this).slot, 0, NAME, index);
    } catch (error) {
      if (error.code === UNKNOWN_NAME) return undefined;
      throw error;
    }
  }

  /** The storage entries by their names, such as "System.Account". */
  get storage() {
    return new Names(this, 'storage:', (name) => {
      const { id, hasBytes } = this.#lookUp(name);
      return new StorageEntry(this, id, name, hasBytes);
    });
  }

  /** The values of constants by their names, such as "Balances.ExistentialDeposit". */
  get constants() {
    return new Names(this, 'constant:', (name) => this.typeOf(name).value());
  }

  /** The custom values by their names. Metadata of version 14 has none. */
  get custom() {
    return new Names(this, 'custom:', (name) => this.typeOf(name).value());
  }

  /** What the methods of runtime APIs take and return. Metadata of version 14 names none. */
  get methods() {
    return new Names(this, 'result:', (result, name) => {
      const returned = this.typeOf(result);
      return { params: this.typeOf(`params:${name}`), result: returned };
    });
  }

  /** Decodes an extrinsic as a block has it, with its length in front. */
  extrinsic(bytes, options) {
    return this.decode(this.#lookUp('extrinsic').id, bytes, { ...options, opaque: true });
  }

  /** Decodes a call. */
  call(bytes, options) {
    return this.decode(this.#lookUp('call').id, bytes, options);
  }

  /** Decodes a block's events, the value of the storage entry System.Events. */
  events(bytes, options) {
    return this.decode(this.#lookUp('storage:System.Events').id, bytes, options);
  }

  /** Decodes what a method of a runtime API returned, such as "Core.version". */
  result(method, bytes, options) {
    return this.decode(this.#lookUp(`result:${method}`).id, bytes, options);
  }

  /** Encodes a call by its name, such as "Balances.transfer_all". */
  encodeCall(name, fields, options) {
    const at = this.#endOfPallet(name);
    const inner = { type: name.slice(at + 1), value: fields };
    const { unwraps } = openOf(this).types;
    const call = { type: name.slice(0, at), value: unwraps ? inner : [inner] };
    return this.encode(this.#lookUp('call').id, call, options);
  }

  /** Encodes what a method of a runtime API takes: an object of its inputs, or null. */
  encodeParams(method, inputs = null, options) {
    return this.encode(this.#lookUp(`params:${method}`).id, inputs, options);
  }

  /** Where the pallet's name ends in that of a call. It may have dots itself. */
  #endOfPallet(name) {
    if (typeof name !== 'string') throw new TypeError('a name has to be a string');
    for (let at = name.indexOf('.'); at >= 0; at = name.indexOf('.', at + 1)) {
      if (this.hasName(`calls:${name.slice(0, at)}`)) return at;
    }
    throw unknownName(`call:${name}`);
  }
}

module.exports = { Metadata, Named, StorageEntry };
