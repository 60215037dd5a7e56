// Names from untrusted metadata, prototypes, and bytes that others change or take away.

import assert from 'node:assert/strict';
import { execFileSync } from 'node:child_process';
import { createRequire } from 'node:module';
import { fileURLToPath } from 'node:url';
import { test } from 'node:test';
import { Registry } from 'scaleview';
import { composite, option, primitive, registryOf, sequence, variant } from './builder.mjs';

const require = createRequire(import.meta.url);
const { isAllowed } = require('../src/generator.js');
const { records, input } = require('../src/records.js');
const native = require('../src/native.js');

const NAMES = [
  '"};process.exit();//', '`${process.exit()}`', "'+process.exit()+'", '\\"};process.exit(1)//',
  '\u2028process.exit()', '\u2029', '*/process.exit()/*', '__proto__', 'constructor', 'toString',
  'hasOwnProperty', 'valueOf', 'then', 'length', 'type', 'value', '', '\0', '</script>', 'é',
];

/** Calls before and after a function is generated. */
const USES = 8;

function checkFields(registry, type, pick) {
  for (let i = 0; i < USES; i += 1) {
    const bytes = Uint8Array.from(NAMES, (_, at) => at + 1);
    const given = type === 2 ? Uint8Array.of(0, ...bytes) : bytes;
    const value = registry.decode(type, given);
    const fields = pick(value);
    assert.deepEqual(Object.keys(fields), NAMES);
    assert.deepEqual(Object.values(fields), [...bytes]);
    assert.equal(Object.getPrototypeOf(fields), Object.prototype);
    assert.deepEqual(registry.encode(type, value), given);
  }
}

test('fields of any name are fields like others', () => {
  const fields = NAMES.map((name) => [name, 0]);
  const registry = new Registry(registryOf(
    primitive('u8'), composite(...fields), variant(['"};process.exit();//', fields, 0]),
  ));
  checkFields(registry, 1, (value) => value);
  checkFields(registry, 2, ({ type, value }) => {
    assert.equal(type, '"};process.exit();//');
    return value;
  });
  assert.equal({}.polluted, undefined);
});

test('a field __proto__ that holds an object is no prototype', () => {
  const registry = new Registry(registryOf(
    primitive('u8'), composite(['polluted', 0]), composite(['__proto__', 1], ['a', 0]),
  ));
  for (let i = 0; i < USES; i += 1) {
    const value = registry.decode(2, '0102');
    assert.equal(Object.getPrototypeOf(value), Object.prototype);
    assert.equal(value.polluted, undefined);
    assert.ok(Object.hasOwn(value, '__proto__'));
    assert.deepEqual(registry.encode(2, value), Uint8Array.of(1, 2));
  }
  assert.equal({}.polluted, undefined);
});

test('a field that an object inherits is missing', () => {
  const registry = new Registry(registryOf(primitive('u8'), composite(['toString', 0])));
  const message = 'value: the field "toString" is missing';
  assert.throws(() => registry.encode(1, {}), { name: 'TypeError', message });
  assert.throws(() => registry.encode(1, { toString: 1, b: 2 }), TypeError);
});

test('a type of very many levels that a value does not have', () => {
  const levels = Array.from({ length: 20_000 }, (_, id) => composite([undefined, id]));
  const last = levels.length;
  const types = registryOf(primitive('u8'), ...levels, option(last), composite(['a', last + 1]));
  const registry = new Registry(types);
  for (let i = 0; i < USES; i += 1) {
    assert.equal(registry.decode(last + 1, '00'), undefined);
    assert.deepEqual(registry.decode(last + 2, '00'), { a: undefined });
    assert.throws(() => registry.decode(last + 1, '0100'), { name: 'TooDeep' });
    assert.deepEqual(registry.decode(40, '07', { depth: 64 }).flat(Infinity), [7]);
    assert.deepEqual(registry.decode(60, '07', { depth: 64 }).flat(Infinity), [7]);
  }
});

test('half a surrogate is no name, no text and no path', () => {
  const half = registryOf(primitive('u8'), composite([[0xed, 0xa0, 0x80], 0]));
  assert.throws(() => new Registry(half), { name: 'BadUtf8', part: 'registry' });
  const named = { path: ['\ufffd'], of: primitive('u8') };
  const registry = new Registry(registryOf(primitive('str'), named));
  assert.throws(() => registry.encode(0, '\ud800'), TypeError);
  assert.equal(registry.find('\ud800'), undefined);
  assert.equal(registry.find('\ufffd').id, 1);
});

test('functions are generated unless this is forbidden', () => {
  const flag = '--disallow-code-generation-from-strings';
  assert.equal(isAllowed, !process.execArgv.includes(flag));
  if (!isAllowed) return;
  for (const name of ['values.test.mjs', 'hostile.test.mjs']) {
    execFileSync(process.execPath, [flag, fileURLToPath(new URL(name, import.meta.url))]);
  }
});

test('the module\'s own buffers reach nobody', () => {
  const registry = new Registry(registryOf(primitive('u8'), sequence(0), sequence(1)));
  const own = [records.u32.buffer, records.pool.buffer, input.buffer, native.control];
  for (const length of [0, 1, 64, 65, 5000]) {
    const [bytes] = registry.decode(2, registry.encode(2, [new Uint8Array(length)]));
    assert.equal(bytes.length, length);
    assert.ok(!own.includes(bytes.buffer));
  }
  assert.ok(!own.includes(registry.encode(1, Uint8Array.of(1)).buffer));
});

test('detached bytes are rejected', () => {
  const registry = new Registry(registryOf(primitive('u8'), sequence(0)));
  const bytes = Uint8Array.of(4, 1);
  structuredClone(bytes.buffer, { transfer: [bytes.buffer] });
  const rejected = { name: 'TypeError', message: 'the bytes are detached' };
  assert.throws(() => registry.decode(1, bytes), rejected);
  assert.throws(() => registry.decodeMany(1, [bytes]), rejected);
  assert.throws(() => registry.decodeJson(1, bytes), rejected);
  assert.throws(() => registry.decodePrefix(1, bytes), rejected);
  assert.throws(() => registry.encode(1, bytes), rejected);
  assert.throws(() => new Registry(bytes), rejected);
  assert.throws(() => registry.decode(1, new Uint8Array(0)), { name: 'Truncated', place: 0 });
});

test('bytes that threads share are copied', () => {
  const registry = new Registry(registryOf(primitive('u8'), sequence(0)));
  for (const length of [60, 100_000]) {
    const data = registry.encode(1, new Uint8Array(length).fill(3));
    const shared = new Uint8Array(new SharedArrayBuffer(data.length));
    shared.set(data);
    const value = registry.decode(1, shared);
    assert.deepEqual(value, new Uint8Array(length).fill(3));
    assert.ok(value.buffer instanceof ArrayBuffer);
    assert.equal(registry.decodeJson(1, shared), registry.decodeJson(1, data));
    assert.deepEqual(registry.decodePrefix(1, shared).value, value);
  }
});

test('a length that an array states of itself is not believed', () => {
  const registry = new Registry(registryOf(primitive('u8'), sequence(0)));
  registry.decode(1, '0c010203');
  const bytes = Uint8Array.of(12, 9);
  Object.defineProperty(bytes, 'length', { value: 4 });
  assert.throws(() => registry.decode(1, bytes), { name: 'Truncated', place: 2 });
  const none = Object.create(Uint8Array.prototype, { length: { value: 4 } });
  assert.throws(() => registry.decode(1, none), TypeError);
});

test('calls may be made while items and values are read', () => {
  const pair = composite(['a', 1], ['b', 0]);
  const registry = new Registry(registryOf(primitive('u8'), sequence(0), pair));
  function* items() {
    for (let i = 0; i < 100; i += 1) {
      assert.deepEqual(registry.decode(1, '04ff'), Uint8Array.of(255));
      yield Uint8Array.of(4, i);
    }
  }
  const expected = Array.from({ length: 100 }, (_, i) => Uint8Array.of(i));
  assert.deepEqual(registry.decodeMany(1, items()), expected);
  const value = {
    a: Uint8Array.of(1),
    get b() { return registry.encode(1, Uint8Array.of(7))[1]; },
  };
  assert.deepEqual(registry.encode(2, value), Uint8Array.of(4, 1, 7));
});
