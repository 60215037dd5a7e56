// What metadata names: types, values, calls and keys, with the values of the examples.

import assert from 'node:assert/strict';
import { readFileSync } from 'node:fs';
import { test } from 'node:test';
import { Metadata, Named, Registry } from 'scaleview';
import { metadataOf } from './tables.mjs';

const EXAMPLES = new URL('../../../examples/', import.meta.url);
const read = (name) => readFileSync(new URL(name, EXAMPLES));

const metadata = new Metadata(read('chain/chain.metadata'));
const later = new Metadata(read('chain/chain15.metadata'));

/** The lines that the command prints of the names. */
function linesOf(file) {
  return read(file).toString().split('\n').filter(Boolean);
}

test('names are those that the command lists', () => {
  const files = [[metadata, 'chain/chain.names'], [later, 'chain/chain15.names']];
  for (const [of, file] of files) {
    const lines = [...of.names()].map(({ name, id }) => `${name} ${id}`);
    assert.deepEqual(lines, linesOf(file));
    const storage = linesOf(file).filter((line) => line.startsWith('storage:'));
    assert.equal(of.storage.size, storage.length);
    assert.deepEqual([...of.storage], storage.map((line) => line.slice(8).split(' ')[0]));
  }
});

test('a storage entry', () => {
  const entry = metadata.storage.get('System.Account');
  assert.ok(entry instanceof Named);
  assert.deepEqual([entry.name, entry.hasBytes], ['storage:System.Account', true]);
  const { key0 } = entry.decodeKey(read('chain/key.scale'));
  const [account] = key0;
  assert.equal(metadata.decodeJson(entry.key, read('chain/key.scale')),
    read('chain/key.json').toString().trim());
  assert.equal(account.length, 32);
  assert.equal(entry.decode(read('runtime/account_info.scale')).nonce, 712822);
  assert.equal(entry.default().data.free, 0n);
  assert.ok(metadata.storage.has('System.Account'));
  assert.ok(!metadata.storage.has('System.Accounts'));
});

test('constants, and names without bytes', () => {
  assert.equal(metadata.constants.get('Balances.ExistentialDeposit'), 10_000_000_000n);
  const rejected = { code: 205, name: 'NoBytes', label: 'call', part: 'type' };
  assert.throws(() => metadata.typeOf('call').bytes, rejected);
});

test('unknown names', () => {
  const unknown = (label) => ({ code: 204, name: 'UnknownName', label });
  assert.throws(() => metadata.storage.get('A.B'), unknown('storage:A.B'));
  assert.throws(() => metadata.constants.get('A'), unknown('constant:A'));
  assert.throws(() => metadata.typeOf('\ud800'), unknown('\ud800'));
  assert.throws(() => metadata.encodeCall('Nothing.pay', {}), unknown('call:Nothing.pay'));
  assert.throws(() => metadata.decode('nothing', ''), unknown('nothing'));
  assert.throws(() => metadata.result('Core.version', ''), unknown('result:Core.version'));
  assert.throws(() => metadata.storage.get(3), TypeError);
});

test('extrinsics and calls', () => {
  const bytes = read('chain/transfer.scale');
  const { type, value } = metadata.extrinsic(bytes);
  assert.deepEqual([type, value.call.type, value.call.value[0].type],
    ['signed', 'Balances', 'transfer_allow_death']);
  assert.equal(metadata.decodeJson('extrinsic', bytes, { opaque: true }),
    read('chain/transfer.json').toString().trim());
  const call = metadata.encodeCall('Balances.transfer_allow_death', value.call.value[0].value);
  assert.deepEqual(call, Uint8Array.from(bytes.subarray(-call.length)));
  assert.deepEqual(metadata.call(call), value.call);
  assert.throws(() => metadata.extrinsic(bytes.subarray(0, 9)), { name: 'Truncated', place: 9 });
  const unwrapping = new Metadata(read('chain/chain.metadata'), { newtypes: true });
  const fields = unwrapping.call(call).value.value;
  assert.deepEqual(unwrapping.encodeCall('Balances.transfer_allow_death', fields), call);
});

test('events', () => {
  const events = metadata.events(read('chain/events.hex').toString());
  assert.deepEqual(events.map(({ event }) => event.type), ['System', 'Balances', 'Utility']);
});

test('runtime calls', () => {
  const method = [...later.methods.keys()][0];
  const { params, result } = later.methods.get(method);
  assert.deepEqual([params.name, result.name], [`params:${method}`, `result:${method}`]);
  assert.equal(metadata.methods.size, 0);
});

test('runtime calls of a small chain', () => {
  const small = new Metadata(metadataOf('small chain 15'));
  const inputs = { block: Uint8Array.of(255), at: 7 };
  const data = Uint8Array.of(4, 255, 7, 0, 0, 0);
  assert.deepEqual(small.encodeParams('Core.run', inputs), data);
  assert.deepEqual(small.methods.get('Core.run').params.decode(data), inputs);
  assert.deepEqual(small.encodeParams('Core.version'), new Uint8Array(0));
  assert.equal(small.result('Core.version', '05000000'), 5);
  assert.deepEqual([...small.custom], ['Owner', 'Sys.Now']);
  assert.deepEqual([small.custom.get('Owner'), small.custom.get('Sys.Now')], [1, 5]);
  assert.equal(small.constants.get('Sys.Limit'), 4096);
  assert.deepEqual(small.constants.get('Sys.Name'), Uint8Array.of(97, 98, 99));
});

test('metadata in what a node answers for a version', () => {
  const bytes = metadataOf('small chain 15');
  // A length below 2^14 is a compact of two bytes.
  const wrap = (inner) => Uint8Array.of(1, (inner.length << 2) & 255 | 1, inner.length >> 6, ...inner);
  assert.ok(bytes.length >= 64 && bytes.length < 2 ** 14);
  const small = new Metadata(wrap(bytes));
  assert.equal(small.constants.get('Sys.Limit'), 4096);
  assert.deepEqual([...new Metadata(Buffer.from(wrap(bytes)).toString('hex')).custom], ['Owner', 'Sys.Now']);
  // Places count from the first byte.
  const cut = bytes.subarray(0, bytes.length - 1);
  assert.throws(() => new Metadata(wrap(cut)), { message: `registry: Truncated at ${bytes.length + 2}` });
  // Nothing else is taken off.
  for (const front of [0, 2]) {
    const other = wrap(bytes);
    other[0] = front;
    assert.throws(() => new Metadata(other), { message: 'registry: NotMetadata at 0' });
  }
  assert.throws(() => new Metadata(wrap(bytes).subarray(0, -1)), { message: 'registry: NotMetadata at 0' });
});

test('a registry reads no names', () => {
  const registry = new Registry(read('chain/chain.metadata'));
  assert.equal(registry.version, 14);
  assert.throws(() => registry.decode('storage:System.Account', ''), { name: 'UnknownName' });
  assert.ok(registry.length < metadata.length);
});
