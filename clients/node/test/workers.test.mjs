// Workers have registries of their own, and stacks that are enough at the depth limit.

import assert from 'node:assert/strict';
import { readFileSync } from 'node:fs';
import { once } from 'node:events';
import { test } from 'node:test';
import { Worker, isMainThread, parentPort, workerData } from 'node:worker_threads';
import { Metadata, Registry } from 'scaleview';
import { primitive, registryOf, variant } from './builder.mjs';

const EXAMPLES = new URL('../../../examples/', import.meta.url);
const DEPTH = 1024;
const CALLS = 2_000;

const read = (name) => readFileSync(new URL(name, EXAMPLES));

function decodeEvents() {
  const metadata = new Metadata(read('chain/chain.metadata'));
  const bytes = read('runtime/events_block.scale');
  let count = 0;
  for (let i = 0; i < CALLS / 20; i += 1) count += metadata.events(bytes).length;
  const account = read('runtime/account_info.scale');
  for (let i = 0; i < CALLS; i += 1) {
    const { nonce } = metadata.decode('storage:System.Account', account);
    assert.equal(nonce, 712822);
  }
  return count;
}

/** Decodes and encodes a value at the depth limit, by both ways, and as JSON. */
function decodeDeep() {
  const list = variant(['Leaf', [], 0], ['Node', [[undefined, 0]], 1]);
  const registry = new Registry(registryOf(list, primitive('u8')));
  const bytes = new Uint8Array(DEPTH + 1).fill(1);
  bytes[DEPTH] = 0;
  const options = { depth: DEPTH };
  for (let i = 0; i < 8; i += 1) {
    const value = registry.decode(0, bytes, options);
    assert.deepEqual(registry.encode(0, value, options), bytes);
  }
  assert.equal(registry.decodeJson(0, bytes, options).length, 11 * DEPTH + 11);
  return DEPTH;
}

const TASKS = { decodeEvents, decodeDeep };

async function runWorker(task, resourceLimits) {
  const worker = new Worker(new URL(import.meta.url), { workerData: task, resourceLimits });
  const [[answer]] = await Promise.all([once(worker, 'message'), once(worker, 'exit')]);
  return answer;
}

if (isMainThread) {
  test('four workers and the main thread at once', async () => {
    const workers = [1, 2, 3, 4].map(() => runWorker('decodeEvents'));
    assert.equal(decodeEvents(), 32 * (CALLS / 20));
    assert.deepEqual(await Promise.all(workers), new Array(4).fill(32 * (CALLS / 20)));
  });

  test('values at the depth limit', async () => {
    assert.equal(decodeDeep(), DEPTH);
    assert.equal(await runWorker('decodeDeep'), DEPTH);
    assert.equal(await runWorker('decodeDeep', { stackSizeMb: 1 }), DEPTH);
  });
} else {
  let answer;
  try {
    answer = TASKS[workerData]();
  } catch (error) {
    answer = String(error.stack);
  }
  parentPort.postMessage(answer);
}
