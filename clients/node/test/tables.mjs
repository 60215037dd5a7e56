// The tables of test vectors, and the JSON that values stand for.

import { readFileSync } from 'node:fs';
import { Bits, Empties, ScaleviewError } from 'scaleview';

const TABLES = new URL('../../../crates/vectors/data/', import.meta.url);

/** The rows of a table, as arrays of columns. */
export function rowsOf(table) {
  const lines = readFileSync(new URL(table, TABLES), 'utf8').split('\n');
  return lines.filter((line) => line && !line.startsWith('#')).map((line) => line.split('\t'));
}

export function bytesOf(column) {
  return column === '-' ? new Uint8Array(0) : Uint8Array.from(Buffer.from(column, 'hex'));
}

export function metadataOf(name) {
  return bytesOf(rowsOf('metadata.tsv').find(([of]) => of === name)[1]);
}

/** An error in the words of the tables. Others are thrown on. */
export function told(error) {
  if (!(error instanceof ScaleviewError)) throw error;
  if (error.code === 112) return `${error.name} ${error.toType} in type ${error.fromType}`;
  return error.place === undefined ? error.name : `${error.name} at ${error.place}`;
}

/** What a call returns, or its error in the words of the tables. */
export function outcome(call) {
  try {
    return call();
  } catch (error) {
    return told(error);
  }
}

/** A row of a table of values. */
export function valueOf(row) {
  const [, , type, depth, bytes] = row;
  const held = Number(row[7]);
  const data = bytesOf(row[5]);
  const json = row[10];
  const ends = { Done: json, More: `Truncated at ${data.length}` }[row[6]] ?? row[6];
  const isLonger = row[6] === 'Done' && held < data.length;
  const whole = isLonger ? `TrailingBytes at ${held}` : ends;
  const options = { depth: Number(depth), bytes: Number(bytes) };
  return { type: Number(type), options, data, answer: row[6], taken: held, ends, whole };
}

/** The kind of what a compact wraps, through composites and tuples of one field. */
function wrapped(type) {
  let found = type;
  while (found.kind === 'compact' || found.fields.length === 1) {
    found = type.registry.type(found.element ?? found.fields[0].type);
  }
  return found.kind;
}

function compareBytes([one], [other]) {
  return Buffer.compare(Buffer.from(one), Buffer.from(other));
}

function textOfObject(entries) {
  const sorted = [...entries].sort(compareBytes);
  return `{${sorted.map(([name, text]) => `${JSON.stringify(name)}:${text}`).join(',')}}`;
}

function textOfFields(value, fields, registry) {
  const text = (part, field) => textOf(part, registry.type(field.type));
  if (Array.isArray(value)) {
    if (value.length !== fields.length) throw new Error('the number of fields differs');
    return `[${fields.map((field, i) => text(value[i], field)).join(',')}]`;
  }
  const names = fields.map(({ name }) => name);
  const isOrdered = names.every((name) => !/^\d+$/.test(name));
  if (isOrdered && Object.keys(value).join() !== names.join()) throw new Error('the order differs');
  return textOfObject(fields.map((field) => [field.name, text(value[field.name], field)]));
}

function isHeld(type) {
  const names = type.variants.map(({ name }) => name).sort();
  if (type.path.split('::').at(-1) !== 'Option' || names.join() !== 'None,Some') return false;
  const [none, some] = ['None', 'Some'].map((of) => type.variants.find(({ name }) => name === of));
  if (none.fields.length !== 0 || some.fields.length !== 1) return false;
  if (some.fields[0].name !== undefined || none.index === some.index) return false;
  return !isOptionShaped(type.registry.type(some.fields[0].type));
}

function isOptionShaped(type) {
  const names = type.variants.map(({ name }) => name).sort();
  return type.path.split('::').at(-1) === 'Option' && names.join() === 'None,Some';
}

function textOfVariant(value, type) {
  if (isHeld(type)) {
    if (value === undefined) return '{"None":[]}';
    const some = type.variants.find(({ name }) => name === 'Some');
    return `{"Some":${textOfFields([value], some.fields, type.registry)}}`;
  }
  const isIt = ({ name, index }) => name === value.type && index === (value.index ?? index);
  const arm = type.variants.find(isIt);
  const fields = value.value === undefined ? [] : value.value;
  const text = textOfFields(fields, arm.fields, type.registry);
  return `{${JSON.stringify(value.type)}:${text}}`;
}

function textOfInteger(value, kind) {
  const isNumber = ['u8', 'u16', 'u32', 'i8', 'i16', 'i32'].includes(kind);
  if (typeof value !== (isNumber ? 'number' : 'bigint')) throw new Error('the wrong type');
  if (kind === 'u256' || kind === 'i256') {
    return `"0x${BigInt.asUintN(256, value).toString(16).padStart(64, '0')}"`;
  }
  return kind === 'u128' || kind === 'i128' ? `"${value}"` : String(value);
}

/** The JSON that the command prints of a value of this type. */
export function textOf(value, type) {
  const { kind, registry } = type;
  if (type.sizeClass === 'Empty') return JSON.stringify(value);
  if (kind === 'variant') return textOfVariant(value, type);
  if (kind === 'composite' || kind === 'tuple') return textOfFields(value, type.fields, registry);
  if (value instanceof Empties) return `{"count":${value.length}}`;
  if (value instanceof Bits) return `"0b${[...value].map(Number).join('')}"`;
  if (value instanceof Uint8Array) return `"0x${Buffer.from(value).toString('hex')}"`;
  if (Array.isArray(value)) {
    const element = registry.type(type.element);
    return `[${value.map((item) => textOf(item, element)).join(',')}]`;
  }
  if (typeof value === 'string' || typeof value === 'boolean') return JSON.stringify(value);
  return textOfInteger(value, wrapped(type));
}
