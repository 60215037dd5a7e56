// Compares `decode` and `decodeMany` with JSON.parse and with decoders by hand, in nanoseconds a
// value. Each variant has a process of its own, which warms up for two seconds; then the runs are
// interleaved, and the best of each counts.
//
//     node clients/node/bench.mjs

import assert from 'node:assert/strict';
import { fork } from 'node:child_process';
import { once } from 'node:events';
import { readFileSync } from 'node:fs';
import { fileURLToPath } from 'node:url';
import { Metadata, Registry } from 'scaleview';

const EXAMPLES = new URL('../../examples/', import.meta.url);
const ACCOUNTS = 10_000;
const WARM_UP = 2_000;
const RUNS = 200;

const read = (name) => readFileSync(new URL(name, EXAMPLES));

function registryOf() {
  return new Registry(read('runtime/metadata.scale'), { newtypes: true });
}

function accountByHand(bytes) {
  if (bytes.length !== 80) throw new Error('the length is wrong');
  const view = new DataView(bytes.buffer, bytes.byteOffset, bytes.length);
  const wide = (at) => (view.getBigUint64(at + 8, true) << 64n) | view.getBigUint64(at, true);
  return {
    nonce: view.getUint32(0, true),
    consumers: view.getUint32(4, true),
    providers: view.getUint32(8, true),
    sufficients: view.getUint32(12, true),
    data: { free: wide(16), reserved: wide(32), frozen: wide(48), flags: wide(64) },
  };
}

/** Accounts that differ in their nonce and their balance. */
function accounts() {
  const first = read('runtime/account_info.scale');
  return Array.from({ length: ACCOUNTS }, (_, i) => {
    const account = Uint8Array.from(first);
    const view = new DataView(account.buffer);
    view.setUint32(0, i, true);
    view.setBigUint64(16, BigInt(i) * 1_000_000_007n, true);
    return account;
  });
}

function account() {
  return Uint8Array.from(read('runtime/account_info.scale'));
}

/** Each variant: how many values a call makes, and how often it is called in a run. */
const VARIANTS = {
  'account decode': () => {
    const registry = registryOf();
    const bytes = account();
    return { values: 1, calls: 2_000, call: () => registry.decode(0, bytes) };
  },
  'account JSON.parse': () => {
    const text = registryOf().decodeJson(0, account());
    return { values: 1, calls: 2_000, call: () => JSON.parse(text) };
  },
  'account by hand': () => {
    const bytes = account();
    return { values: 1, calls: 2_000, call: () => accountByHand(bytes) };
  },
  'accounts decode': () => {
    const registry = registryOf();
    const items = accounts();
    const call = () => items.map((item) => registry.decode(0, item));
    return { values: ACCOUNTS, calls: 1, call };
  },
  'accounts decodeMany': () => {
    const registry = registryOf();
    const items = accounts();
    return { values: ACCOUNTS, calls: 1, call: () => registry.decodeMany(0, items) };
  },
  'accounts JSON.parse': () => {
    const registry = registryOf();
    const texts = accounts().map((item) => registry.decodeJson(0, item));
    return { values: ACCOUNTS, calls: 1, call: () => texts.map((text) => JSON.parse(text)) };
  },
  'accounts by hand': () => {
    const items = accounts();
    return { values: ACCOUNTS, calls: 1, call: () => items.map(accountByHand) };
  },
  'events decode': () => {
    const registry = registryOf();
    const bytes = Uint8Array.from(read('runtime/events_block.scale'));
    return { values: 1, calls: 20, call: () => registry.decode(10, bytes) };
  },
  'events JSON.parse': () => {
    const text = read('runtime/events_block.json').toString();
    return { values: 1, calls: 20, call: () => JSON.parse(text) };
  },
  'by position': () => {
    const metadata = new Metadata(read('chain/chain.metadata'), { newtypes: true });
    const bytes = account();
    const { id } = metadata.storage.get('System.Account');
    return { values: 1, calls: 2_000, call: () => metadata.decode(id, bytes) };
  },
  'by name': () => {
    const metadata = new Metadata(read('chain/chain.metadata'), { newtypes: true });
    const bytes = account();
    const call = () => metadata.decode('storage:System.Account', bytes);
    return { values: 1, calls: 2_000, call };
  },
};

/** What is shown: a variant, what it is compared with, and the ratio that it has at most. */
const RATIOS = [
  ['account decode', 'account JSON.parse', 0.6],
  ['account decode', 'account by hand', 1.7],
  ['accounts decode', 'accounts JSON.parse', 0.7],
  ['accounts decode', 'accounts by hand', 1.7],
  ['accounts decodeMany', 'accounts JSON.parse', 0.55],
  ['accounts decodeMany', 'accounts by hand', 1.4],
  ['events decode', 'events JSON.parse', 0.5],
  ['by name', 'by position', 1.1],
];

/** Keeps what a call makes, so that it isn't left out. */
let kept;

function run({ values, calls, call }) {
  const start = process.hrtime.bigint();
  for (let i = 0; i < calls; i += 1) kept = call();
  return Number(process.hrtime.bigint() - start) / (calls * values);
}

function serve(name) {
  const variant = VARIANTS[name]();
  const end = Date.now() + WARM_UP;
  while (Date.now() < end) run(variant);
  process.on('message', () => process.send(run(variant)));
  process.send(kept === undefined ? 'nothing' : 'ready');
}

async function runOnce(child) {
  child.send('run');
  const [time] = await once(child, 'message');
  return time;
}

async function measure() {
  const best = new Map();
  const children = new Map();
  for (const name of Object.keys(VARIANTS)) {
    const child = fork(fileURLToPath(import.meta.url), [name]);
    await once(child, 'message');
    children.set(name, child);
  }
  for (let i = 0; i < RUNS; i += 1) {
    for (const [name, child] of children) {
      best.set(name, Math.min(best.get(name) ?? Infinity, await runOnce(child)));
    }
  }
  for (const child of children.values()) child.disconnect();
  return best;
}

async function main() {
  assert.deepEqual(registryOf().decode(0, account()), accountByHand(account()));
  const best = await measure();
  for (const [name, time] of best) console.log(`${name}: ${time.toFixed(0)} ns`);
  for (const [name, other, most] of RATIOS) {
    const ratio = (best.get(name) / best.get(other)).toFixed(2);
    console.log(`${name} / ${other}: ${ratio}, at most ${most}${ratio > most ? ' EXCEEDED' : ''}`);
  }
}

if (process.argv[2] === undefined) await main();
else serve(process.argv[2]);
