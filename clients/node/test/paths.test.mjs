// Where in a value its bytes are rejected. The paths are worked out by hand.

import assert from 'node:assert/strict';
import { test } from 'node:test';
import { Decoder, Registry } from 'scaleview';
import {
  array, bitsOf, compactOf, composite, primitive, registryOf, sequence, tuple, variant,
} from './builder.mjs';

const [BOOL, TX, CHAIN] = [0, 10, 14];
const TYPES = registryOf(
  primitive('bool'), primitive('str'), compactOf(3), primitive('u32'), primitive('u8'),
  array(4, 4), composite([undefined, 5]), tuple(0, 0),
  variant(['Stop', [], 0], ['Transfer', [['dest', 6], ['value', 2]], 5]),
  variant(['Balances', [[undefined, 8]], 3]),
  composite(['calls', 11], ['ok', 0], ['pair', 7], ['memo', 1], ['tail', 12]),
  sequence(9), bitsOf(4, 13), composite(),
  variant(['End', [], 0], ['Next', [[undefined, 14]], 1]),
);
// Two calls, of which the second is a transfer; true; false and true; "hi". The bit sequence that
// follows isn't read.
const BYTES = [8, 3, 0, 3, 5, 1, 2, 3, 4, 4, 1, 0, 1, 8, 0x68, 0x69];

const registry = new Registry(TYPES);

function check(type, bytes, message, path, options) {
  const data = Uint8Array.from(bytes);
  for (const decode of ['decode', 'decodeJson']) {
    assert.throws(() => registry[decode](type, data, options), { message, path });
  }
}

function checkByte(place, byte, message, path) {
  check(TX, BYTES.with(place, byte), message, path);
}

test('a path has names and positions', () => {
  checkByte(1, 4, 'value: NoSuchVariant at 1', 'value.calls[0]');
  checkByte(4, 1, 'value: NoSuchVariant at 4', 'value.calls[1].Balances[0]');
  const amount = 'value.calls[1].Balances[0].Transfer.value';
  checkByte(9, 0x13, 'value: CompactTooLarge at 9', amount);
  checkByte(10, 2, 'value: BadBool at 10', 'value.ok');
  checkByte(12, 2, 'value: BadBool at 12', 'value.pair[1]');
  checkByte(15, 0xff, 'value: BadUtf8 at 15', 'value.memo');
});

test('a path leads to where bytes end', () => {
  check(TX, [], 'value: Truncated at 0', 'value.calls');
  const dest = 'value.calls[1].Balances[0].Transfer.dest[0]';
  check(TX, BYTES.slice(0, 7), 'value: Truncated at 7', dest);
  check(TX, BYTES, 'value: BitSequence at 16', 'value.tail');
  check(TX, BYTES, 'value: TooLong at 10', 'value.ok', { bytes: 10 });
  const deep = 'value.Next[0].Next[0].Next[0]';
  check(CHAIN, [1, 1, 1, 0], 'value: TooDeep at 3', deep, { depth: 2 });
  check(BOOL, [2], 'value: BadBool at 0', 'value');
});

test('items and opaque values have one', () => {
  const items = [[1], [0], [2], [1]].map((bytes) => Uint8Array.from(bytes));
  const message = 'value: BadBool at 0 in item 2';
  assert.throws(() => registry.decodeMany(BOOL, items), { message, path: 'value' });
  const opaque = Uint8Array.from([7 << 2, ...BYTES.slice(0, 7)]);
  const path = 'value.calls[1].Balances[0].Transfer.dest[0]';
  const cut = { message: 'value: Truncated at 8', path };
  assert.throws(() => registry.decode(TX, opaque, { opaque: true }), cut);
});

test('other errors have none', () => {
  const pathOf = (call) => {
    try {
      call();
    } catch (error) {
      return [error.name, error.path];
    }
    return undefined;
  };
  const trailing = pathOf(() => registry.decode(BOOL, Uint8Array.of(1, 0)));
  assert.deepEqual(trailing, ['TrailingBytes', undefined]);
  const unknown = pathOf(() => registry.decode(15, Uint8Array.of()));
  assert.deepEqual(unknown, ['UnknownType', undefined]);
  const memory = pathOf(() => registry.decode(TX, Uint8Array.from(BYTES), { memory: 1 }));
  assert.deepEqual(memory, ['OutOfMemory', undefined]);
  const piece = pathOf(() => new Decoder(registry, BOOL).write(Uint8Array.of(2)));
  assert.deepEqual(piece, ['BadBool', undefined]);
});
