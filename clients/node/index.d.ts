import { Transform } from 'node:stream';

/** Bytes: a Uint8Array, such as a Buffer, or text of hexadecimal digits. */
export type Bytes = Uint8Array | string;

/** A type: its position, its name or itself. */
export type TypeName = number | string | Type;

/** A decoded value. The types of a registry are known at run time alone. */
export type Value = any;

/** A value of a variant type. */
export interface Variant<T extends string = string, V = Value> {
  type: T;
  /** The fields: an object, an array, or undefined if there are none. */
  value: V;
  /** The first byte of its values, where several variants of the type have this name. */
  index?: number;
}

export interface RegistryOptions {
  /** Whether the bytes are metadata. Their first letters decide if it isn't given. */
  metadata?: boolean;
  /** Reads values of bit sequences, which are rejected otherwise. */
  bits?: boolean;
  /** Gives what has one unnamed field as what this field holds. */
  newtypes?: boolean;
}

export interface Limits {
  /** The greatest depth of a part, up to 1024. The default is 64. */
  depth?: number;
  /** The most bytes of a value, up to 2 ** 40. The default is 2 ** 24. */
  bytes?: number;
  /**
   * The most bytes that the library allocates for a value, or null for no bound. The default is
   * 64 MiB and 64 times the length of the input.
   */
  memory?: number | null;
}

export interface Options extends Limits {
  /** Whether the value has its length in front. */
  opaque?: boolean;
}

export interface Field {
  /** Its name, or undefined. */
  readonly name: string | undefined;
  /** The position of its type. */
  readonly type: number;
}

export interface Arm {
  readonly name: string;
  /** The first byte of its values. */
  readonly index: number;
  readonly fields: readonly Field[];
}

/** A type of a registry, which decodes and encodes its values. */
export class Type {
  protected constructor();
  readonly registry: Registry;
  readonly id: number;
  /** Its path, such as "frame_system::AccountInfo", or "". */
  get path(): string;
  /** "composite", "variant", "sequence", .., or the name of a primitive. */
  get kind(): string;
  /** How many bytes its values take. */
  get sizeClass(): 'NoValue' | 'Empty' | 'Sized';
  get fields(): Field[];
  get variants(): Arm[];
  /** The type of elements, of what a compact wraps, or of the store of bits. */
  get element(): number | undefined;
  /** The type that names the order of bits. */
  get order(): number | undefined;
  /** The number of elements of an array. */
  get length(): number | undefined;
  decode<T = Value>(bytes: Bytes, options?: Options): T;
  encode(value: Value, options?: Limits): Uint8Array;
  toString(): string;
}

/** An open registry of types, or a chain's metadata without its names. */
export class Registry {
  constructor(data: Bytes, options?: RegistryOptions);
  /** The version of the metadata, or undefined. */
  get version(): number | undefined;
  /** The number of types. */
  get length(): number;
  type(type: TypeName): Type;
  types(): IterableIterator<Type>;
  /** The first type with this path, from a position on. */
  find(path: string, from?: number): Type | undefined;
  /** Decodes the value that all the bytes spell. */
  decode<T = Value>(type: TypeName, bytes: Bytes, options?: Options): T;
  decodeMany<T = Value>(type: TypeName, items: Iterable<Bytes>, options?: Options): T[];
  /** Decodes a value to the JSON text that the command prints. */
  decodeJson(type: TypeName, bytes: Bytes, options?: Options): string;
  /** Decodes the value that the first bytes spell, and reports how many they are. */
  decodePrefix<T = Value>(
    type: TypeName, bytes: Bytes, options?: Limits,
  ): { value: T; length: number };
  encode(type: TypeName, value: Value, options?: Limits): Uint8Array;
  /** Closes the registry, so that neither it nor its decoders can be used. */
  close(): void;
}

/** A type by the name that metadata gives to it, such as "result:Core.version". */
export class Named extends Type {
  protected constructor();
  readonly registry: Metadata;
  readonly name: string;
  /** Whether the metadata has bytes for it. */
  readonly hasBytes: boolean;
  get bytes(): Uint8Array;
  /** The value that the metadata has for it. */
  value<T = Value>(options?: Options): T;
}

/** A storage entry, which is the type of its values. */
export class StorageEntry extends Named {
  protected constructor();
  /** The type of its keys. */
  get key(): Named;
  decodeKey<T = Value>(bytes: Bytes, options?: Options): T;
  /** The value that an absent one stands for. */
  default<T = Value>(options?: Options): T;
}

/** What metadata names by one word, by the rest of each name. */
export interface Names<T> extends Iterable<string> {
  readonly size: number;
  has(name: string): boolean;
  /** Throws UnknownName if nothing has the name. */
  get(name: string): T;
  keys(): IterableIterator<string>;
}

/** A chain's metadata of version 14 or 15, with the names that it gives to types. */
export class Metadata extends Registry {
  constructor(data: Bytes, options?: Omit<RegistryOptions, 'metadata'>);
  /** The type of a name as a whole, such as "calls:Balances" or "event". */
  typeOf(name: string): Named;
  hasName(name: string): boolean;
  names(): IterableIterator<Named>;
  get storage(): Names<StorageEntry>;
  get constants(): Names<Value>;
  get custom(): Names<Value>;
  get methods(): Names<{ params: Named; result: Named }>;
  /** Decodes an extrinsic as a block has it, with its length in front. */
  extrinsic<T = Value>(bytes: Bytes, options?: Limits): T;
  call<T = Value>(bytes: Bytes, options?: Options): T;
  /** Decodes a block's events. */
  events<T = Value[]>(bytes: Bytes, options?: Options): T;
  /** Decodes what a method of a runtime API returned, such as "Core.version". */
  result<T = Value>(method: string, bytes: Bytes, options?: Options): T;
  /** Encodes a call by its name, such as "Balances.transfer_all". */
  encodeCall(name: string, fields?: Value, options?: Limits): Uint8Array;
  /** Encodes what a method of a runtime API takes. */
  encodeParams(method: string, inputs?: Value, options?: Limits): Uint8Array;
}

/** A value whose bytes are written in pieces. */
export class Decoder<T = Value> {
  constructor(registry: Registry, type: TypeName, options?: Limits);
  /** The number of bytes that were taken. */
  get taken(): number;
  /** Takes a piece, and returns how many of its bytes end the value, or undefined before that. */
  write(bytes: Bytes): number | undefined;
  /** Ends the value and returns it. */
  end(): T;
  endJson(): string;
  close(): void;
}

/** A stream of bytes to the values that they spell one after another. */
export class DecoderStream extends Transform {
  constructor(registry: Registry, type: TypeName, options?: Limits);
}

/** A sequence of bits. */
export class Bits implements Iterable<boolean> {
  constructor(bits?: Iterable<boolean>);
  get length(): number;
  at(position: number): boolean | undefined;
  [Symbol.iterator](): IterableIterator<boolean>;
  /** `0b` and each bit in order. */
  toString(): string;
  toJSON(): string;
}

/** A sequence of values that take no bytes. */
export class Empties implements Iterable<null> {
  constructor(length: number);
  get length(): number;
  at(position: number): null | undefined;
  [Symbol.iterator](): IterableIterator<null>;
  toJSON(): { count: number };
}

/** Bytes, a type, a name, a limit or a value that is rejected, or an allocation that failed. */
export class ScaleviewError extends Error {
  protected constructor();
  /** The library's number, 0 for OddHex and BadHex, or "ERR_OUT_OF_MEMORY". */
  readonly code: number | 'ERR_OUT_OF_MEMORY';
  /** The reason, such as "Truncated". */
  readonly name: string;
  readonly part?: 'registry' | 'check' | 'type' | 'limits' | 'value';
  /** The place in bytes from the start, or in characters for OddHex and BadHex. */
  readonly place?: number;
  /**
   * Where in a value its bytes are rejected, or a part isn't encoded, such as "value.list[3]".
   * Bytes that come in pieces have none.
   */
  readonly path?: string;
  /** The position of the rejected item of `decodeMany`. */
  readonly item?: number;
  /** The name that metadata doesn't have, or has no bytes for. */
  readonly label?: string;
  readonly fromType?: number;
  readonly toType?: number;
}
