// Registries and decoders that are dropped are freed: the resident memory stays flat.

import assert from 'node:assert/strict';
import { execFileSync } from 'node:child_process';
import { readFileSync } from 'node:fs';
import { setImmediate } from 'node:timers/promises';
import { fileURLToPath } from 'node:url';
import { test } from 'node:test';
import { Decoder, Registry } from 'scaleview';

const TURNS = 100;
const IN_A_TURN = 1_000;
const MOST_GROWTH = 16 << 20;

const FILE = new URL('../../../examples/account/registry.scale', import.meta.url);
const registryBytes = readFileSync(FILE);

function openAndDrop() {
  for (let i = 0; i < IN_A_TURN / 2; i += 1) {
    const registry = new Registry(registryBytes);
    const decoder = new Decoder(registry, 4);
    assert.equal(decoder.write(registryBytes.subarray(0, 5)), undefined);
    if (i % 100 === 0) registry.close();
    if (i % 100 === 1) decoder.close();
  }
}

/** Drops registries and sessions, 100,000 in all, and reports how much the memory grew. */
async function watch() {
  let first;
  for (let turn = 0; turn < TURNS; turn += 1) {
    openAndDrop();
    globalThis.gc();
    await setImmediate();
    if (turn === TURNS / 4) first = process.memoryUsage().rss;
  }
  return process.memoryUsage().rss - first;
}

if (process.argv[2] === 'watch') {
  console.log(await watch());
} else {
  test('resident memory', () => {
    const program = fileURLToPath(import.meta.url);
    const growth = Number(execFileSync(process.execPath, ['--expose-gc', program, 'watch']));
    assert.ok(growth < MOST_GROWTH, `the memory grew by ${growth} bytes`);
  });
}
