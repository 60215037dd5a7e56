// Values: what each type gives, by the interpreter and by generated functions, and back.

import assert from 'node:assert/strict';
import { createRequire } from 'node:module';
import { test } from 'node:test';
import { Bits, Empties, Registry } from 'scaleview';
import {
  array, bitsOf, compactOf, composite, option, primitive, registryOf, sequence, tuple, variant,
} from './builder.mjs';

const require = createRequire(import.meta.url);
const { openOf } = require('../src/registry.js');
const { valueAt } = require('../src/interpreter.js');
const { isAllowed } = require('../src/generator.js');

/** Checks a value by the interpreter, by a generated function, and back. */
function check(registry, type, bytes, expected) {
  const data = Uint8Array.from(bytes);
  const open = openOf(registry);
  const { readers } = open;
  readers.functions = [];
  readers.of = () => (at) => valueAt(open.types, at);
  assert.deepEqual(registry.decode(type, data), expected);
  if (isAllowed) {
    readers.of = (id) => readers.generated(id);
    assert.deepEqual(registry.decode(type, data), expected);
    assert.deepEqual(registry.decodeMany(type, [data, data]), [expected, expected]);
  }
  delete readers.of;
  assert.deepEqual(registry.encode(type, expected), data);
}

test('integers are numbers up to 32 bits, and else bigints', () => {
  const registry = new Registry(registryOf(
    primitive('u8'), primitive('u32'), primitive('u64'), primitive('u128'), primitive('u256'),
    primitive('i8'), primitive('i32'), primitive('i64'), primitive('i128'), primitive('i256'),
    compactOf(1), compactOf(2),
  ));
  check(registry, 0, [255], 255);
  check(registry, 1, [255, 255, 255, 255], 4294967295);
  check(registry, 2, [1, 0, 0, 0, 0, 0, 0, 128], 0x8000000000000001n);
  check(registry, 3, [5, 0, 0, 0, 0, 0, 0, 0, 0, 0, 0, 0, 0, 0, 0, 0], 5n);
  check(registry, 3, new Array(16).fill(255), 2n ** 128n - 1n);
  check(registry, 4, new Array(32).fill(255), 2n ** 256n - 1n);
  check(registry, 5, [128], -128);
  check(registry, 6, [254, 255, 255, 255], -2);
  check(registry, 7, [254, 255, 255, 255, 255, 255, 255, 255], -2n);
  check(registry, 8, [...new Array(15).fill(0), 128], -(2n ** 127n));
  check(registry, 8, [3, ...new Array(15).fill(0)], 3n);
  check(registry, 9, new Array(32).fill(255), -1n);
  check(registry, 10, [0xfe, 0xff, 3, 0], 65535);
  check(registry, 11, [4], 1n);
});

test('texts, bytes, arrays and nothing', () => {
  const registry = new Registry(registryOf(
    primitive('u8'), primitive('str'), sequence(0), array(3, 0), primitive('bool'), sequence(4),
    primitive('char'), tuple(), sequence(7), array(2, 4), tuple(0, 7, 4),
  ));
  check(registry, 1, [0], '');
  check(registry, 1, [12, 97, 98, 99], 'abc');
  check(registry, 1, [8, 0xc3, 0xa9], 'é');
  check(registry, 1, [80, ...Buffer.from('a text of 20 letters')], 'a text of 20 letters');
  check(registry, 2, [8, 1, 2], Uint8Array.of(1, 2));
  check(registry, 3, [1, 2, 3], Uint8Array.of(1, 2, 3));
  check(registry, 5, [8, 1, 0], [true, false]);
  check(registry, 6, [0x80, 0xf6, 1, 0], '\u{1f680}');
  check(registry, 7, [], null);
  check(registry, 8, [12], new Empties(3));
  check(registry, 9, [1, 0], [true, false]);
  check(registry, 10, [9, 1], [9, null, true]);
  assert.deepEqual([...registry.decode(8, '0x0c')], [null, null, null]);
});

test('composites and variants', () => {
  const registry = new Registry(registryOf(
    primitive('u8'), composite(['b', 0], ['a', 0]), composite([undefined, 0], [undefined, 0]),
    variant(['A', [], 0], ['B', [['x', 0]], 7], ['C', [[undefined, 0]], 2]),
    composite([undefined, 3]),
    variant(['A', [[undefined, 0]], 0], ['A', [[undefined, 0]], 1]), sequence(3),
    composite(['list', 6], ['last', 3]), composite(['a', 0], ['a', 0]),
  ));
  check(registry, 1, [1, 2], { b: 1, a: 2 });
  assert.deepEqual(Object.keys(registry.decode(1, '0102')), ['b', 'a']);
  check(registry, 2, [1, 2], [1, 2]);
  check(registry, 3, [0], { type: 'A', value: undefined });
  check(registry, 3, [7, 5], { type: 'B', value: { x: 5 } });
  check(registry, 3, [2, 5], { type: 'C', value: [5] });
  check(registry, 4, [0], [{ type: 'A', value: undefined }]);
  check(registry, 5, [1, 5], { type: 'A', value: [5], index: 1 });
  const list = [{ type: 'A', value: undefined }, { type: 'B', value: { x: 1 } }];
  check(registry, 7, [8, 0, 7, 1, 2, 9], { list, last: { type: 'C', value: [9] } });
  check(registry, 8, [1, 2], [1, 2]);
});

test('newtypes are what they hold where that is asked for', () => {
  const arm = variant(['A', [[undefined, 1]], 0]);
  const types = registryOf(primitive('u8'), composite([undefined, 0]), arm);
  check(new Registry(types), 2, [0, 5], { type: 'A', value: [[5]] });
  check(new Registry(types, { newtypes: true }), 2, [0, 5], { type: 'A', value: 5 });
});

test('an option is undefined or what it holds, unless that is an option', () => {
  const types = registryOf(
    primitive('u8'), option(0), option(1), composite([undefined, 1]), option(3), option(5), tuple(),
    option(6),
  );
  const registry = new Registry(types);
  check(registry, 1, [0], undefined);
  check(registry, 1, [1, 9], 9);
  check(registry, 2, [0], { type: 'None', value: undefined });
  check(registry, 2, [1, 0], { type: 'Some', value: [undefined] });
  check(registry, 2, [1, 1, 9], { type: 'Some', value: [9] });
  check(registry, 4, [1, 0], [undefined]);
  check(registry, 5, [1, 1, 0], {
    type: 'Some', value: [{ type: 'Some', value: [{ type: 'None', value: undefined }] }],
  });
  check(registry, 7, [1], null);
  check(registry, 7, [0], undefined);
  const unwrapped = new Registry(types, { newtypes: true });
  check(unwrapped, 4, [1, 0], { type: 'Some', value: undefined });
  check(unwrapped, 4, [0], { type: 'None', value: undefined });
});

test('bits', () => {
  const types = registryOf(
    primitive('u16'), { path: ['Msb0'], of: composite() }, { path: ['Lsb0'], of: composite() },
    bitsOf(0, 1), bitsOf(0, 2),
  );
  const registry = new Registry(types, { bits: true });
  check(registry, 3, [12, 0, 0b10100000], new Bits([true, false, true]));
  check(registry, 4, [12, 0b101, 0], new Bits([true, false, true]));
  const bits = registry.decode(3, '0x0c00a0');
  assert.deepEqual([bits.length, bits.at(1), bits.at(-1), bits.at(3)], [3, false, true, undefined]);
  assert.deepEqual([...bits], [true, false, true]);
  assert.equal(JSON.stringify(bits), '"0b101"');
  assert.throws(() => new Registry(types).decode(3, '0x00'), { name: 'BitSequence', place: 0 });
});

test('bytes of any length stand in memory of their own', () => {
  const registry = new Registry(registryOf(primitive('u8'), sequence(0), sequence(1)));
  const runs = [1, 64, 65, 1000].map((length) => new Uint8Array(length).fill(length & 255));
  const data = registry.encode(2, runs);
  const found = registry.decode(2, data);
  assert.deepEqual(found, runs);
  for (const run of found) run.fill(0);
  assert.deepEqual(registry.decode(2, data), runs);
  assert.equal(found[2].buffer, found[3].buffer);
  assert.ok(found[2].buffer.byteLength < 2000);
});

test('large values need larger buffers, which are given back', () => {
  const { records } = require('../src/records.js');
  const types = registryOf(primitive('u8'), sequence(0), primitive('bool'), sequence(2));
  const registry = new Registry(types);
  const bytes = new Uint8Array(9_000_000).fill(7);
  assert.deepEqual(registry.decode(1, registry.encode(1, bytes)), bytes);
  const booleans = new Array(400_000).fill(true);
  const data = registry.encode(3, booleans);
  assert.deepEqual(registry.decode(3, data), booleans);
  assert.deepEqual(registry.decodeMany(3, [data, data, data]), [booleans, booleans, booleans]);
  assert.equal(registry.decodePrefix(3, data).length, data.length);
  assert.ok(records.u32.byteLength + records.pool.length < 2 ** 20);
});
