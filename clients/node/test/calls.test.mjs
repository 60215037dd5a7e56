// Arguments, options, errors, registries, decoders and streams.

import assert from 'node:assert/strict';
import { createRequire } from 'node:module';
import { Readable } from 'node:stream';
import { test } from 'node:test';
import * as scaleview from 'scaleview';
import { Decoder, DecoderStream, Registry, ScaleviewError } from 'scaleview';
import {
  bitsOf, composite, option, primitive, registryOf, sequence, tuple, variant,
} from './builder.mjs';

const TYPES = registryOf(
  primitive('u8'), sequence(0), { path: ['a', 'Pair'], of: composite(['x', 0], ['y', 1]) },
  primitive('bool'), variant(['Leaf', [], 0], ['Node', [[undefined, 4]], 1]), option(0), tuple(),
  primitive('u128'), primitive('char'), bitsOf(0, 6),
);

test('both entries have the same classes', () => {
  const required = createRequire(import.meta.url)('scaleview');
  assert.deepEqual({ ...required }, { ...scaleview });
});

test('a type is named by its position, its path or itself', () => {
  const registry = new Registry(TYPES);
  const value = { x: 1, y: Uint8Array.of(2) };
  assert.deepEqual(registry.decode(2, '010402'), value);
  assert.deepEqual(registry.decode('a::Pair', '0x010402\n'), value);
  assert.deepEqual(registry.find('a::Pair').decode(Buffer.of(1, 4, 2)), value);
  assert.deepEqual(registry.type(2).encode(value), Uint8Array.of(1, 4, 2));
  const unknown = { code: 204, name: 'UnknownName', label: 'a::Triple', part: 'type' };
  assert.throws(() => registry.decode('a::Triple', ''), unknown);
  assert.throws(() => registry.decode(10, ''), { code: 201, name: 'UnknownType', toType: 10 });
  assert.throws(() => registry.encode(10, 1), { code: 201, name: 'UnknownType', toType: 10 });
  for (const wrong of [-1, 1.5, 2 ** 32, null, undefined, {}, new Registry(TYPES).type(2)]) {
    assert.throws(() => registry.decode(wrong, ''), TypeError);
  }
});

test('types are described', () => {
  const registry = new Registry(TYPES);
  const types = [...registry.types()];
  assert.equal(types.length, registry.length);
  assert.deepEqual(types.map(({ kind }) => kind), [
    'u8', 'sequence', 'composite', 'bool', 'variant', 'variant', 'tuple', 'u128', 'char',
    'bitsequence',
  ]);
  assert.deepEqual(types[2].fields, [{ name: 'x', type: 0 }, { name: 'y', type: 1 }]);
  assert.deepEqual(types[4].variants[1], {
    name: 'Node', index: 1, fields: [{ name: undefined, type: 4 }],
  });
  assert.deepEqual([types[1].element, types[9].order, types[6].sizeClass], [0, 6, 'Empty']);
});

test('text of hexadecimal digits', () => {
  const registry = new Registry(TYPES);
  assert.throws(() => registry.decode(0, '0x1'), { code: 0, name: 'OddHex', place: 3 });
  assert.throws(() => registry.decode(0, '0x1g'), { name: 'BadHex', place: 3, part: 'value' });
  assert.throws(() => registry.decode(0, '\u0130\u0131'), { name: 'BadHex', place: 0 });
  assert.throws(() => new Registry('zz'), { name: 'BadHex', place: 0, part: 'registry' });
});

test('wrong arguments are TypeErrors', () => {
  const registry = new Registry(TYPES);
  for (const wrong of [null, undefined, 5, [1], {}, new Uint16Array(1), new ArrayBuffer(1)]) {
    assert.throws(() => registry.decode(0, wrong), TypeError);
    assert.throws(() => new Registry(wrong), TypeError);
  }
  const options = [
    null, 1, { depth: '1' }, { depth: -1 }, { bytes: 0.5 }, { memory: -1 }, { opaque: 1 },
  ];
  for (const wrong of options) assert.throws(() => registry.decode(0, '01', wrong), TypeError);
  for (const wrong of [{ bits: 1 }, { newtypes: 0 }, { metadata: 'x' }]) {
    assert.throws(() => new Registry(TYPES, wrong), TypeError);
  }
});

test('limits', () => {
  const registry = new Registry(TYPES);
  const node = '01'.repeat(64);
  assert.equal(registry.decode(4, `${node}00`).type, 'Node');
  assert.throws(() => registry.decode(4, `${node}0100`), { name: 'TooDeep', place: 65 });
  assert.throws(() => registry.decode(0, '05', { depth: 1025 }), { code: 202, part: 'limits' });
  assert.throws(() => registry.decode(0, '05', { bytes: 2 ** 40 + 1 }), { code: 202 });
  assert.throws(() => registry.decode(1, '0801', { bytes: 1 }), { name: 'TooLong', place: 1 });
  const rejected = { code: 'ERR_OUT_OF_MEMORY', name: 'OutOfMemory' };
  const data = registry.encode(1, new Uint8Array(5000));
  assert.throws(() => registry.decode(1, data, { memory: 1000 }), rejected);
  assert.throws(() => registry.decode(1, data, { memory: 0 }), rejected);
  assert.throws(() => registry.encode(1, new Uint8Array(5000), { memory: 1000 }), rejected);
  assert.equal(registry.decode(1, data, { memory: null }).length, 5000);
});

test('a default budget stops bytes that claim much memory', () => {
  const empties = new Array(200).fill([undefined, 1]);
  const large = composite(...empties, [undefined, 0]);
  const registry = new Registry(registryOf(primitive('u8'), tuple(), large, sequence(2)));
  // A sequence of 100,000 elements of one byte, each with 202 nodes of 24 bytes.
  const data = Uint8Array.of(0x82, 0x1a, 6, 0, ...new Array(100_000).fill(1));
  assert.throws(() => registry.decode(3, data), { code: 'ERR_OUT_OF_MEMORY' });
  assert.throws(() => registry.decodePrefix(3, data, { memory: 1e6 }), { name: 'OutOfMemory' });
});

test('opaque values have their length in front', () => {
  const registry = new Registry(TYPES);
  const opaque = true;
  assert.deepEqual(registry.decode(1, '0c080102', { opaque }), Uint8Array.of(1, 2));
  assert.deepEqual(registry.decodeMany(1, ['080401'], { opaque }), [Uint8Array.of(1)]);
  assert.equal(registry.decodeJson(1, '0c080102', { opaque }), '"0x0102"');
  assert.throws(() => registry.decode(1, '0c0801', { opaque }), { name: 'Truncated', place: 3 });
  assert.throws(() => registry.decode(3, '0402', { opaque }), { name: 'BadBool', place: 1 });
  const item = { name: 'BadBool', item: 1, place: 1 };
  assert.throws(() => registry.decodeMany(3, ['0401', '0402'], { opaque }), item);
});

test('errors have the reason, the place and the item', () => {
  const registry = new Registry(TYPES);
  assert.throws(() => registry.decode(3, '02'), (error) => {
    assert.ok(error instanceof ScaleviewError && error instanceof Error);
    assert.deepEqual([error.code, error.name, error.place], [302, 'BadBool', 0]);
    assert.equal(error.message, 'value: BadBool at 0');
    return true;
  });
  const items = new Array(100).fill('01');
  items[77] = '02';
  assert.throws(() => registry.decodeMany(3, items), { item: 77, place: 0, name: 'BadBool' });
});

test('wrong values are named by their path', () => {
  const registry = new Registry(TYPES);
  const wrong = (type, value, message) =>
    assert.throws(() => registry.encode(type, value), { name: 'TypeError', message });
  wrong(2, { x: '1', y: Uint8Array.of() }, 'value.x: expected an integer, not string');
  wrong(2, { x: 1, y: [1] }, 'value.y: expected a Uint8Array, not an array');
  wrong(2, { x: 1 }, 'value: the field "y" is missing');
  wrong(2, { x: 1, y: Uint8Array.of(), z: 1 }, 'value: there is no field "z"');
  wrong(4, { type: 'Node', value: [{ type: 'Leave' }] },
    'value.Node[0]: there is no variant "Leave"');
  wrong(3, 1, 'value: expected a boolean, not number');
  wrong(6, undefined, 'value: expected null, not undefined');
  wrong(8, 'ab', 'value: expected a string of one character, not string');
  const range = { name: 'RangeError', message: 'value.x: the number is out of range of u8' };
  assert.throws(() => registry.encode(2, { x: 256, y: Uint8Array.of() }), range);
  assert.throws(() => registry.encode(7, -1n), RangeError);
  const bits = { code: 403, name: 'BitSequence', path: 'value' };
  assert.throws(() => registry.encode(9, []), bits);
  let deep = { type: 'Leaf' };
  for (let i = 0; i < 4; i += 1) deep = { type: 'Node', value: [deep] };
  const tooDeep = { code: 401, name: 'TooDeep', path: 'value.Node[0].Node[0].Node[0]' };
  assert.throws(() => registry.encode(4, deep, { depth: 2 }), tooDeep);
  const circular = { type: 'Node', value: [] };
  circular.value.push(circular);
  assert.throws(() => registry.encode(4, circular), { name: 'TooDeep' });
});

test('a closed registry is rejected, and so are its decoders', () => {
  const registry = new Registry(TYPES);
  const decoder = new Decoder(registry, 1);
  registry.decode(2, '010402');
  registry.close();
  registry.close();
  const other = new Registry(TYPES);
  for (const call of [
    () => registry.decode(2, '010402'), () => registry.encode(0, 1),
    () => registry.decodeJson(0, '01'), () => registry.decodeMany(0, ['01']),
    () => new Decoder(registry, 0), () => String(registry.type(0)),
  ]) assert.throws(call, { name: 'TypeError', message: 'the registry is closed' });
  for (const call of [() => decoder.write('0401'), () => decoder.end(), () => decoder.endJson()]) {
    assert.throws(call, { name: 'TypeError', message: 'the registry is closed' });
  }
  decoder.close();
  assert.throws(() => decoder.end(), { name: 'TypeError', message: 'the decoder is closed' });
  assert.equal(other.decode(0, '01'), 1);
});

test('a prefix', () => {
  const registry = new Registry(TYPES);
  assert.deepEqual(registry.decodePrefix(1, '0401ffff'), { value: Uint8Array.of(1), length: 2 });
  assert.throws(() => registry.decodePrefix(1, '0801'), { name: 'Truncated', place: 2 });
});

async function streamed(type, chunks, options) {
  const stream = Readable.from(chunks, { objectMode: false });
  const values = [];
  for await (const value of stream.pipe(new DecoderStream(new Registry(TYPES), type, options))) {
    values.push(value);
  }
  return values;
}

test('a stream of values', async () => {
  const bytes = Buffer.from('0801020c03040500', 'hex');
  const expected = [Uint8Array.of(1, 2), Uint8Array.of(3, 4, 5), Uint8Array.of()];
  for (const step of [1, 3, 8]) {
    const chunks = [];
    for (let at = 0; at < bytes.length; at += step) chunks.push(bytes.subarray(at, at + step));
    assert.deepEqual(await streamed(1, chunks), expected);
  }
  assert.deepEqual(await streamed(5, [Buffer.of(0, 1, 9, 0)]), [undefined, 9, undefined]);
  assert.throws(() => new DecoderStream(new Registry(TYPES), 6), TypeError);
});

/** What a stream of these bytes ends with. */
function failure(type, bytes) {
  return new Promise((resolve) => {
    const stream = new DecoderStream(new Registry(TYPES), type);
    stream.on('error', resolve).on('end', resolve).resume();
    stream.end(Buffer.from(bytes));
  });
}

test('a stream that ends in a value, or has a wrong one', async () => {
  const cut = await failure(1, [4, 1, 8, 1]);
  assert.deepEqual([cut.name, cut.place], ['Truncated', 4]);
  const wrong = await failure(3, [1, 0, 2]);
  assert.deepEqual([wrong.name, wrong.place], ['BadBool', 2]);
});
