// Uses of the package that its types have to accept or to reject.

import {
  Bits, Decoder, DecoderStream, Empties, Metadata, Named, Registry, ScaleviewError, Type, Variant,
} from 'scaleview';

interface Account { nonce: number; data: { free: bigint } }

const registry = new Registry('0x00', { bits: true, newtypes: true });
const metadata = new Metadata(new Uint8Array(0));
const account = metadata.storage.get('System.Account').decode<Account>('0x');
const free: bigint = account.data.free;
const many: Account[] = registry.decodeMany<Account>(3, ['0x', new Uint8Array(1)]);
const { value, length } = registry.decodePrefix<boolean>('a::Path', '01', { depth: 3 });
const decoder = new Decoder<Account>(registry, 0, { bytes: 80, memory: null });
const taken: number | undefined = decoder.write('00');
const ended: Account = decoder.end();
const stream = new DecoderStream(registry, 0).on('data', () => undefined);
const types: Type[] = [...registry.types()];
const names: Named[] = [...metadata.names()];
const bits: boolean[] = [...new Bits([true])];
const count: number = new Empties(3).length;
const event: Variant<'System' | 'Balances'> = metadata.events('0x')[0].event;
const encoded: Uint8Array = metadata.encodeCall('System.remark', { remark: encoded0() });

function encoded0(): Uint8Array {
  return registry.encode(types[0], value);
}

export function describe(error: unknown): string {
  if (!(error instanceof ScaleviewError)) return String(free + BigInt(length));
  return `${error.name} at ${error.place} with ${error.code}`;
}

// @ts-expect-error A type is no object of another kind.
registry.decode({}, '0x');
// @ts-expect-error Numbers are no bytes.
registry.decode(0, 5);
// @ts-expect-error Metadata is always metadata.
new Metadata('0x', { metadata: false });
// @ts-expect-error Types are made by registries.
new Type(registry, 0);
// @ts-expect-error The values of a registry change by no assignment.
registry.length = 3;

export { many, taken, ended, stream, names, bits, count, event, encoded };
