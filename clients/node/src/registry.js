'use strict';

const { addon, words, numbers, CODE, AT, SLOT, TYPE } = require('./native');
const { unknownName } = require('./errors');
const { limitsOf, limitsOfUnknown, bytesOf, utf8Of } = require('./arguments');
const { Open } = require('./open');
const { Type } = require('./types');
const { decodePrefix } = require('./session');

const [METADATA, NAMES, BITS] = [1, 2, 4];
const LETTERS = [0x6d, 0x65, 0x74, 0x61];
const MOST_TYPE = 2 ** 32 - 1;

/** The open registry of a Registry, and the position of a type that an argument names. */
let openOf;
let idOf;

function booleanOf(name, value) {
  if (typeof value !== 'boolean') throw new TypeError(`${name} has to be a boolean`);
  return value;
}

function beginsMetadata(bytes) {
  return LETTERS.every((letter, i) => bytes[i] === letter);
}

/** Opens a registry, or all of a chain's metadata if its names are wanted. */
function openRegistry(data, options, hasNames) {
  const bytes = bytesOf(data, 'registry');
  const { bits = false, newtypes = false } = options;
  const { metadata = hasNames || beginsMetadata(bytes) } = options;
  const flags = (booleanOf('metadata', metadata) ? METADATA : 0)
    | (hasNames ? NAMES : 0) | (booleanOf('bits', bits) ? BITS : 0);
  return new Open(bytes, flags, { bits, newtypes: booleanOf('newtypes', newtypes) });
}

/** An open registry of types, or a chain's metadata without its names. */
class Registry {
  #open;
  #ids = new Map();

  static {
    openOf = (registry) => registry.#open;
    idOf = (registry, type) => registry.#idOf(type);
  }

  constructor(data, options = {}) {
    this.#open = openRegistry(data, options, this.hasNames);
  }

  /** Whether the names that metadata gives to types are read. */
  get hasNames() {
    return false;
  }

  /** The version of the metadata, or undefined. */
  get version() {
    return this.#open.version === 0 ? undefined : this.#open.version;
  }

  /** The number of types. */
  get length() {
    return this.#open.types.count;
  }

  /** The type at a position, or of a name. */
  type(type) {
    return new Type(this, this.#open.types, this.#idOf(type));
  }

  /** Iterates over the types by position. */
  *types() {
    for (let id = 0; id < this.length; id += 1) yield this.type(id);
  }

  /** The first type with this path, from a position on, or undefined. */
  find(path, from = 0) {
    const bytes = utf8Of(path);
    if (bytes === undefined || bytes.length === 0) return undefined;
    words[SLOT] = this.#open.slot;
    words[TYPE] = from;
    addon.find(bytes);
    return words[CODE] === 0 ? this.type(numbers[AT]) : undefined;
  }

  /** Decodes the value that all the bytes spell. */
  decode(type, bytes, options) {
    const id = this.#idOf(type);
    const limits = limitsOf(options);
    if (limits.opaque) return this.#decodeOpaque(id, bytesOf(bytes), limits);
    return this.#open.decode(id, bytesOf(bytes), limits);
  }

  /** Decodes several values of one type to an array. */
  decodeMany(type, items, options) {
    const id = this.#idOf(type);
    const limits = limitsOf(options);
    if (!limits.opaque) return this.#open.decodeMany(id, items, limits);
    return Array.from(items, (bytes, item) =>
      this.#decodeOpaque(id, bytesOf(bytes), limits, item));
  }

  #decodeOpaque(id, bytes, limits, item) {
    const before = this.#open.opaque(id, bytes, { item });
    return this.#open.decode(id, bytes.subarray(before), limits, { before, item });
  }

  /** Decodes a value to the JSON text that the command prints. */
  decodeJson(type, data, options) {
    const id = this.#idOf(type);
    const limits = limitsOf(options);
    const bytes = bytesOf(data);
    if (!limits.opaque) return this.#open.decodeJson(id, bytes, limits);
    const before = this.#open.opaque(id, bytes);
    return this.#open.decodeJson(id, bytes.subarray(before), limits, { before });
  }

  /** Decodes the value that the first bytes spell: `{ value, length }`. */
  decodePrefix(type, bytes, options) {
    return decodePrefix(this.#open, this.#idOf(type), bytesOf(bytes), limitsOfUnknown(options));
  }

  /** Encodes a value. */
  encode(type, value, options) {
    return this.#open.encode(this.#idOf(type), value, limitsOf(options));
  }

  /** Closes the registry, so that neither it nor its decoders can be used. */
  close() {
    this.#open.close();
  }

  [Symbol.dispose ?? Symbol.for('nodejs.dispose')]() {
    this.close();
  }

  #idOf(type) {
    if (typeof type === 'number') {
      if (Number.isInteger(type) && type >= 0 && type <= MOST_TYPE) return type;
      throw new TypeError('the position of a type has to be an integer from 0 to 2 ** 32 - 1');
    }
    if (typeof type === 'string') return this.#idOfText(type);
    if (type instanceof Type && type.registry === this) return type.id;
    throw new TypeError('a type has to be a position, a name or a Type of this registry');
  }

  #idOfText(text) {
    let id = this.#ids.get(text);
    if (id === undefined) {
      id = this.idOfName(text);
      this.#ids.set(text, id);
    }
    return id;
  }

  /** The position of the type that a name stands for: the first one with this path. */
  idOfName(name) {
    const found = this.find(name);
    if (found === undefined) throw unknownName(name);
    return found.id;
  }
}

module.exports = { Registry, openOf: (registry) => openOf(registry), idOf: (...of) => idOf(...of) };
