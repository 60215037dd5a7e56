// Every row of the tables of test vectors: registries, and values whole, in pieces, as JSON, as
// JavaScript's values by the interpreter and by generated functions, and back.

import assert from 'node:assert/strict';
import { test } from 'node:test';
import { Decoder, Metadata, Registry, ScaleviewError } from 'scaleview';
import { bytesOf, outcome, rowsOf, textOf, told, valueOf } from './tables.mjs';

/** More calls than the interpreter makes before a function is generated. */
const USES = 6;

function checkRegistry([, prefix, digits, read, check, lines]) {
  const data = bytesOf(digits);
  const end = read.split(' ')[0];
  let refusal = check.startsWith('W') ? '' : check;
  if (!/^\d+$/.test(end)) refusal = read;
  else if (prefix === 'none' && Number(end) < data.length) refusal = `TrailingBytes at ${end}`;
  const found = outcome(() => {
    const registry = new Registry(data, { metadata: prefix === 'metadata' });
    const shown = [...registry.types()].map((type) => {
      assert.equal(registry.find(type.path) === undefined, type.path === '');
      return String(type);
    });
    assert.equal(shown.join(' / ') || '-', lines);
    return '';
  });
  assert.equal(found, refusal);
}

/** Decodes often enough that functions are generated, and compares with the interpreter. */
function decoded(registry, { type, data, options }) {
  const first = registry.decode(type, data, options);
  for (let i = 0; i < USES; i += 1) {
    assert.deepEqual(registry.decode(type, data, options), first);
  }
  return first;
}

function checkWhole(registry, value) {
  const { type, data, options, whole } = value;
  assert.equal(outcome(() => registry.decodeJson(type, data, options)), whole);
  const found = outcome(() => {
    const made = decoded(registry, value);
    const { depth } = options;
    assert.deepEqual(registry.encode(type, made, { depth }), data);
    return textOf(made, registry.type(type));
  });
  assert.equal(found, whole);
  assert.equal(outcome(() => {
    const { value: made } = registry.decodePrefix(type, data, options);
    return textOf(made, registry.type(type));
  }), value.ends);
}

function checkPieces(registry, { type, data, options, answer, taken, ends }, step) {
  const found = outcome(() => {
    const decoder = new Decoder(registry, type, options);
    try {
      for (let at = 0; at === 0 || at < data.length; at += step) {
        if (decoder.write(data.subarray(at, at + step)) !== undefined) break;
      }
    } catch (error) {
      assert.equal(told(error), answer);
    }
    assert.equal(decoder.taken, taken);
    const json = decoder.endJson();
    assert.equal(textOf(decoder.end(), registry.type(type)), json);
    decoder.close();
    return json;
  });
  assert.equal(found, ends);
}

function checkValue(registry, value) {
  if (value.options.depth > 1024) {
    const rejected = { code: 202, name: 'LimitOutOfRange' };
    assert.throws(() => registry.decode(value.type, value.data, value.options), rejected);
    return;
  }
  checkWhole(registry, value);
  for (const step of [1, 7, 4096]) checkPieces(registry, value, step);
}

function printed(column) {
  return column === '-' ? '' : column.replace(/\\(.)/g, (_, sign) => (sign === 'n' ? '\n' : sign));
}

/** What the words after `decode r` ask for, or undefined if it is more than the package does. */
function lineOf([name, ...rest]) {
  const options = { opaque: name === 'extrinsic' };
  const flags = new Set();
  for (let i = 0; i < rest.length; i += 1) {
    if (rest[i] === '--opaque') options.opaque = true;
    else if (rest[i] === '--depth') options.depth = Number(rest[++i]);
    else if (rest[i] === '--bytes') options.bytes = Number(rest[++i]);
    else if (['v', '--metadata', '--bits'].includes(rest[i])) flags.add(rest[i]);
    else return undefined;
  }
  return { name, options, flags };
}

function runLine({ name, options, flags }, file, value) {
  const bits = flags.has('--bits');
  const isId = /^\d+$/.test(name);
  const metadata = flags.has('--metadata');
  const registry = isId ? new Registry(file, { metadata, bits }) : new Metadata(file, { bits });
  const type = isId ? registry.type(Number(name)) : registry.typeOf(name);
  const data = isId || flags.has('v') ? value : type.bytes;
  const json = registry.decodeJson(type, data, options);
  assert.equal(textOf(registry.decode(type, data, options), type), json);
  return `${json}\n`;
}

function listed(file) {
  const lines = [...new Metadata(file).names()].map(({ name, id }) => {
    const isPlain = [...name].every((letter) => letter >= ' ');
    return `${isPlain ? name : JSON.stringify(name)} ${id}\n`;
  });
  return lines.join('');
}

test('registries.tsv', () => {
  for (const row of rowsOf('registries.tsv')) checkRegistry(row);
});

test('values.tsv', () => {
  const registries = new Map(rowsOf('registries.tsv').map((row) => [row[0], bytesOf(row[2])]));
  for (const row of rowsOf('values.tsv')) {
    const registry = new Registry(registries.get(row[1]), { metadata: false });
    checkValue(registry, valueOf(row));
  }
});

test('bits.tsv', () => {
  for (const row of rowsOf('bits.tsv')) {
    const registry = new Registry(bytesOf(row[1]), { metadata: false, bits: true });
    checkValue(registry, valueOf(row));
  }
});

test('metadata.tsv', () => {
  for (const [, digits, answer] of rowsOf('metadata.tsv')) {
    const data = bytesOf(digits);
    let found;
    try {
      const metadata = new Metadata(data);
      const names = [...metadata.names()].length;
      found = `${new Registry(data).length} ${metadata.length} ${names}`;
    } catch (error) {
      assert.ok(error instanceof ScaleviewError);
      found = error.message;
    }
    assert.equal(found, answer);
  }
});

test('chain.tsv', () => {
  const files = new Map(rowsOf('metadata.tsv').map((row) => [row[0], bytesOf(row[1])]));
  let used = 0;
  for (const [, words, name, value, status, out, err] of rowsOf('chain.tsv')) {
    const line = words.startsWith('decode r ') ? lineOf(words.split(' ').slice(2)) : undefined;
    if ((!line && words !== 'names r') || !'01'.includes(status)) continue;
    const file = files.get(name);
    let found;
    try {
      found = ['0', line ? runLine(line, file, bytesOf(value)) : listed(file)];
    } catch (error) {
      if (!(error instanceof ScaleviewError)) throw error;
      found = ['1', `scaleview: ${error.message}\n`];
    }
    assert.deepEqual(found, [status, printed(status === '0' ? out : err)]);
    used += 1;
  }
  assert.ok(used > 270, `${used} rows were used`);
});
