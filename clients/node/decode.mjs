// Decodes a value as the command does, whole or in pieces, or lists the types of a registry.
//
//     node decode.mjs types FILE [--metadata]
//     node decode.mjs decode FILE ID VALUEFILE [OPTION ..]
//
// Options of `decode` are --metadata, --bits, --hex, --depth D and --pieces N.

import { readFileSync } from 'node:fs';
import { parseArgs } from 'node:util';
import { Decoder, Registry, ScaleviewError } from 'scaleview';

const OPTIONS = {
  metadata: { type: 'boolean', default: false },
  bits: { type: 'boolean', default: false },
  hex: { type: 'boolean', default: false },
  depth: { type: 'string', default: '64' },
  pieces: { type: 'string' },
};

class Failure extends Error {
  constructor(message, status) {
    super(message);
    this.status = status;
  }
}

function numberOf(word) {
  if (!/^\d+$/.test(word ?? '')) throw new Failure(`${word} is no number`, 2);
  return Number(word);
}

function read(path) {
  try {
    return readFileSync(path);
  } catch (error) {
    throw new Failure(`${path}: ${error.code}`, 3);
  }
}

function decodeInPieces(registry, type, bytes, depth, step) {
  const decoder = new Decoder(registry, type, { depth });
  for (let at = 0; at < bytes.length; at += step) {
    const used = decoder.write(bytes.subarray(at, at + step));
    if (used === undefined) continue;
    if (at + used < bytes.length) throw new Failure(`value: TrailingBytes at ${at + used}`, 1);
    break;
  }
  return decoder.endJson();
}

function run() {
  const { values, positionals } = parseArgs({ options: OPTIONS, allowPositionals: true });
  const [command, file, id, valueFile] = positionals;
  const { metadata, bits } = values;
  const registry = new Registry(read(file), { metadata, bits });
  if (command === 'types') return [...registry.types()].join('\n');
  const type = numberOf(id);
  const depth = numberOf(values.depth);
  const bytes = read(valueFile);
  const value = values.hex ? bytes.toString('latin1') : bytes;
  if (values.pieces === undefined) return registry.decodeJson(type, value, { depth });
  return decodeInPieces(registry, type, value, depth, numberOf(values.pieces));
}

try {
  console.log(run());
} catch (error) {
  if (!(error instanceof ScaleviewError) && !(error instanceof Failure)) throw error;
  console.error(`scaleview: ${error.message}`);
  process.exitCode = error.status ?? (error.code === 'ERR_OUT_OF_MEMORY' ? 4 : 1);
}
