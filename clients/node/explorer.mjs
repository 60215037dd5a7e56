// An afternoon of a block explorer, by names alone: a block's extrinsics and events, an account by
// its key, ten thousand accounts, and a call that is encoded.
//
//     node clients/node/explorer.mjs

import { readFileSync } from 'node:fs';
import { Metadata, ScaleviewError } from 'scaleview';

const EXAMPLES = new URL('../../examples/', import.meta.url);
const ACCOUNTS = 10_000;

const read = (name) => readFileSync(new URL(name, EXAMPLES));

/** A value for JSON.stringify: bigints as text, and bytes as hexadecimal digits. */
function forJson(key, value) {
  if (typeof value === 'bigint') return String(value);
  if (value instanceof Uint8Array) return `0x${Buffer.from(value).toString('hex')}`;
  return value;
}

function printValue(value) {
  console.log(`  ${JSON.stringify(value, forJson)}`);
}

/** The amounts in an event: the name of the variant that has a field `amount`, and its value. */
function* amounts(value) {
  if (value === null || typeof value !== 'object') return;
  if (typeof value.value?.amount === 'bigint') yield [value.type, value.value.amount];
  for (const part of Object.values(value)) yield* amounts(part);
}

function showExtrinsics(metadata, extrinsics) {
  console.log(`${extrinsics.length} extrinsics in a block`);
  for (const data of extrinsics) {
    const { type, value } = metadata.extrinsic(data);
    const { call } = value;
    console.log(`  ${type} ${call.type}.${call.value.type}`);
    if (type === 'signed') printValue(value);
  }
}

function showEvents(metadata, block) {
  const events = metadata.events(block);
  console.log(`${events.length} events`);
  for (const { phase, event } of events) {
    console.log(`  ${phase.type} ${event.type}.${event.value.type}`);
  }
  printValue(events[1]);
}

function showAmounts(metadata, block) {
  const events = metadata.events(block);
  console.log(`${events.length} events in ${block.length} bytes; amounts:`);
  let total = 0n;
  events.forEach(({ event }, position) => {
    for (const [name, amount] of amounts(event)) {
      console.log(`  ${String(position).padStart(2)} ${event.type}.${name}: ${amount}`);
      total += amount;
    }
  });
  console.log(`  in all ${total}`);
}

function showAccount(metadata, key, stored) {
  const entry = metadata.storage.get('System.Account');
  const { key0 } = entry.decodeKey(key);
  console.log(`the account ${forJson('', key0)}`);
  const account = entry.decode(stored);
  printValue(account);
  const least = metadata.constants.get('Balances.ExistentialDeposit');
  console.log(`  holds more than ${least}: ${account.data.free > least}`);
  console.log(`  a new one has ${entry.default().data.free}`);
}

function sumBalances(metadata, stored) {
  const entry = metadata.storage.get('System.Account');
  const account = entry.decode(stored);
  const rows = Array.from({ length: ACCOUNTS }, (_, nonce) => {
    const data = { ...account.data, free: 10n ** 18n + BigInt(nonce) };
    return entry.encode({ ...account, nonce, data });
  });
  const decoded = metadata.decodeMany('storage:System.Account', rows);
  const free = decoded.reduce((sum, { data }) => sum + data.free, 0n);
  const nonces = decoded.reduce((sum, { nonce }) => sum + nonce, 0);
  const each = rows[0].length;
  const held = `${free} free, and ${nonces} nonces`;
  console.log(`${decoded.length} accounts of ${each} bytes have ${held}`);
}

/** Prints the error that a call throws. */
function showError(call) {
  try {
    call();
  } catch (error) {
    const kind = error instanceof ScaleviewError ? 'ScaleviewError' : error.name;
    console.log(`  ${kind}: ${error.message}`);
  }
}

function encodeCall(metadata) {
  const name = 'Balances.transfer_allow_death';
  const fields = { dest: { type: 'Id', value: new Uint8Array(32).fill(7) }, value: 10n ** 12n };
  const data = metadata.encodeCall(name, fields);
  console.log(`a call: ${forJson('', data)}`);
  printValue(metadata.call(data));
  showError(() => metadata.encodeCall(name, { ...fields, value: 2n ** 128n }));
  showError(() => metadata.encodeCall(name, { ...fields, dest: { type: 'Id', value: '0x07' } }));
  showError(() => metadata.encodeCall(name, fields, { depth: 3 }));
  showError(() => metadata.call(data.subarray(0, -1)));
  showError(() => metadata.storage.get('System.Accounts'));
}

// As a node answers it: text of hexadecimal digits.
const answer = `0x${read('chain/chain.metadata').toString('hex')}`;
const metadata = new Metadata(answer, { bits: true, newtypes: true });
console.log(`metadata ${metadata.version} of ${metadata.length} types: `
  + `${metadata.storage.size} storage entries, ${metadata.constants.size} constants`);
showExtrinsics(metadata, [read('chain/extrinsic.hex').toString(), read('chain/transfer.scale')]);
showEvents(metadata, read('chain/events.hex').toString());
showAmounts(metadata, read('runtime/events_block.scale'));
const stored = read('runtime/account_info.scale');
showAccount(metadata, read('chain/key.scale'), stored);
sumBalances(metadata, stored);
encodeCall(metadata);
