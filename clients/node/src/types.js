'use strict';

const { addon, words, numbers, answer, SLOT, TYPE, CODE, FROM, WORDS, AT } = require('./native');
const { errorOf } = require('./errors');

const KINDS = [
  'composite', 'variant', 'sequence', 'array', 'tuple', 'primitive', 'compact', 'bitsequence',
];
const CLASSES = ['NoValue', 'Empty', 'Sized'];
const PRIMITIVES = [
  'bool', 'char', 'str', 'u8', 'u16', 'u32', 'u64', 'u128', 'u256',
  'i8', 'i16', 'i32', 'i64', 'i128', 'i256',
];
const [U8, U64, U128] = ['u8', 'u64', 'u128'].map((name) => PRIMITIVES.indexOf(name));
const [PART, ARM, ARM_FIELD, PATH, LINE, NAME] = [0, 1, 2, 3, 4, 5];

/** A text of the registry: its subject, and positions. */
function described(slot, type, subject, first = 0, second = 0) {
  words[SLOT] = slot;
  words[TYPE] = type;
  words[WORDS] = subject;
  words[WORDS + 1] = first;
  words[WORDS + 2] = second;
  const text = addon.describe();
  if (words[CODE] !== 0) throw errorOf(answer(), { type });
  return text;
}

function shapeOf(slot, type) {
  words[SLOT] = slot;
  words[TYPE] = type;
  addon.shape();
  if (words[CODE] !== 0) throw errorOf(answer(), { type });
  const [kind, valueClass, ...numbersOfType] = words.slice(WORDS, WORDS + 7);
  const [primitive, element, order, length, parts] = numbersOfType;
  return {
    kind: KINDS[kind], valueClass: CLASSES[valueClass], primitive, element, order, length, parts,
  };
}

/** Fields, whose values stand in an object if all have names, which differ. */
function fieldsOf(count, describe) {
  const fields = [];
  for (let i = 0; i < count; i += 1) {
    const name = describe(i);
    fields.push({ name: numbers[AT] === 1 ? name : undefined, type: words[FROM] });
  }
  const names = fields.map(({ name }) => name);
  const areDistinct = new Set(names).size === count;
  const areNamed = count > 0 && !names.includes(undefined) && areDistinct;
  return { fields, areNamed };
}

/** Marks arms that only their index tells from others of the same name. */
function markAmbiguous(arms) {
  const counts = new Map();
  for (const { name } of arms) counts.set(name, (counts.get(name) ?? 0) + 1);
  for (const arm of arms) arm.isAmbiguous = counts.get(arm.name) > 1;
}

/** Whether arms are those of an option: None, which is empty, and Some with one unnamed field. */
function areOption(arms) {
  if (arms.length !== 2) return false;
  const none = arms.find(({ name }) => name === 'None');
  const some = arms.find(({ name }) => name === 'Some');
  if (!none || !some || none.index === some.index) return false;
  return none.fields.length === 0 && some.fields.length === 1 && some.fields[0].name === undefined;
}

/** What a registry says about its types, each read when it is first asked for. */
class Types {
  #open;
  #known = new Map();

  constructor(open, count, { bits, newtypes }) {
    this.#open = open;
    this.count = count;
    this.hasBits = bits;
    this.unwraps = newtypes;
  }

  of(type) {
    let found = this.#known.get(type);
    if (found === undefined) {
      found = this.#read(type);
      this.#known.set(type, found);
    }
    return found;
  }

  path(type) {
    return described(this.#open.slot, type, PATH);
  }

  line(type) {
    return described(this.#open.slot, type, LINE);
  }

  #read(type) {
    const slot = this.#open.slot;
    const shape = shapeOf(slot, type);
    const info = { ...shape, type, fields: [], arms: [], areNamed: false };
    if (shape.kind === 'composite' || shape.kind === 'tuple') {
      Object.assign(info, fieldsOf(shape.parts, (at) => described(slot, type, PART, at)));
    } else if (shape.kind === 'variant') {
      for (let at = 0; at < shape.parts; at += 1) info.arms.push(this.#readArm(type, at));
      markAmbiguous(info.arms);
    } else if (shape.kind === 'compact') {
      info.target = this.#targetOf(shape.element);
    } else if (shape.kind === 'bitsequence') {
      info.form = this.#formOf(shape);
    }
    return info;
  }

  #readArm(type, arm) {
    const slot = this.#open.slot;
    const name = described(slot, type, ARM, arm);
    const index = words[FROM];
    const found = fieldsOf(numbers[AT], (at) => described(slot, type, ARM_FIELD, arm, at));
    return { name, index, position: arm, ...found };
  }

  /** The unsigned primitive that a compact wraps, through composites and tuples of one field. */
  #targetOf(element) {
    let type = element;
    for (let steps = 0; steps <= this.count; steps += 1) {
      const { kind, primitive, parts } = shapeOf(this.#open.slot, type);
      if (kind === 'primitive') return primitive >= U8 && primitive <= U128 ? primitive : undefined;
      if ((kind !== 'composite' && kind !== 'tuple') || parts !== 1) return undefined;
      described(this.#open.slot, type, PART, 0);
      type = words[FROM];
    }
    return undefined;
  }

  /** Where the bits of a bit sequence are, or undefined if the registry doesn't read its values. */
  #formOf({ element, order }) {
    if (!this.hasBits || element >= this.count || order >= this.count) return undefined;
    const store = shapeOf(this.#open.slot, element);
    const isWord = store.primitive >= U8 && store.primitive <= U64;
    if (store.kind !== 'primitive' || !isWord) return undefined;
    const { kind, parts } = shapeOf(this.#open.slot, order);
    const last = this.path(order).split('::').at(-1);
    const isKnown = last === 'Lsb0' || last === 'Msb0';
    if (kind !== 'composite' || parts > 0 || !isKnown) return undefined;
    return { width: 8 << (store.primitive - U8), isMsb0: last === 'Msb0' };
  }

  isBytes({ kind, element }) {
    if (kind !== 'sequence' && kind !== 'array') return false;
    const of = this.of(element);
    return of.kind === 'primitive' && of.primitive === U8;
  }

  /** Whether fields are a newtype's, whose value is what it holds if that was asked for. */
  isUnwrapped({ fields }) {
    return this.unwraps && fields.length === 1 && fields[0].name === undefined;
  }

  /** What an option may hold, or undefined if the type is no option. */
  #heldBy(info) {
    if (info.kind !== 'variant' || !areOption(info.arms)) return undefined;
    if (this.path(info.type).split('::').at(-1) !== 'Option') return undefined;
    return info.arms.find(({ name }) => name === 'Some').fields[0].type;
  }

  /** Whether values of a type are options themselves, also those that a newtype holds. */
  #holdsOption(type) {
    let info = this.of(type);
    for (let steps = 0; steps <= this.count; steps += 1) {
      if (this.#heldBy(info) !== undefined) return true;
      const isNewtype = info.kind === 'composite' || info.kind === 'tuple';
      if (!isNewtype || info.valueClass !== 'Sized' || !this.isUnwrapped(info)) return false;
      info = this.of(info.fields[0].type);
    }
    return false;
  }

  /** The type of what an option holds whose values are undefined or that, or else undefined. */
  held(info) {
    if (info.held === undefined) {
      const held = this.#heldBy(info);
      info.held = held === undefined || this.#holdsOption(held) ? null : held;
    }
    return info.held ?? undefined;
  }
}

function fieldsShown(fields) {
  return fields.map(({ name, type }) => ({ name, type }));
}

/** A type of a registry, which decodes and encodes its values. */
class Type {
  #types;

  constructor(registry, types, id) {
    this.registry = registry;
    this.id = id;
    this.#types = types;
    Object.defineProperty(this, 'registry', { enumerable: false });
  }

  /** Its path, such as "frame_system::AccountInfo", or "" if it has none. */
  get path() {
    return this.#types.path(this.id);
  }

  /** "composite", "variant", .., or the name of a primitive. */
  get kind() {
    const { kind, primitive } = this.#types.of(this.id);
    return kind === 'primitive' ? PRIMITIVES[primitive] : kind;
  }

  /** "Sized", "Empty" if its values take no bytes, or "NoValue" if it has no finite value. */
  get sizeClass() {
    return this.#types.of(this.id).valueClass;
  }

  get fields() {
    return fieldsShown(this.#types.of(this.id).fields);
  }

  get variants() {
    const shown = ({ name, index, fields }) => ({ name, index, fields: fieldsShown(fields) });
    return this.#types.of(this.id).arms.map(shown);
  }

  /** The type of elements, of what a compact wraps, or of the store of bits. */
  get element() {
    const { kind, element } = this.#types.of(this.id);
    return ['sequence', 'array', 'compact', 'bitsequence'].includes(kind) ? element : undefined;
  }

  get order() {
    const { kind, order } = this.#types.of(this.id);
    return kind === 'bitsequence' ? order : undefined;
  }

  /** The number of elements of an array. */
  get length() {
    const { kind, length } = this.#types.of(this.id);
    return kind === 'array' ? length : undefined;
  }

  decode(bytes, options) {
    return this.registry.decode(this.id, bytes, options);
  }

  encode(value, options) {
    return this.registry.encode(this.id, value, options);
  }

  /** Its position, class, kind and path, as the command prints them. */
  toString() {
    return this.#types.line(this.id).slice(0, -1);
  }
}

module.exports = { Types, Type, PRIMITIVES, described, NAME };
