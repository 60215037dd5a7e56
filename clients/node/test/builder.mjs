// Bytes of registries, written by hand.

export function compact(number) {
  if (number < 64) return [number << 2];
  if (number < 2 ** 14) return [((number << 2) | 1) & 255, number >> 6];
  return [((number << 2) | 2) & 255, (number >> 6) & 255, (number >> 14) & 255, number >> 22];
}

export function text(string) {
  const bytes = typeof string === 'string' ? [...Buffer.from(string)] : string;
  return [...compact(bytes.length), ...bytes];
}

function list(items) {
  return [...compact(items.length), ...items.flat()];
}

function field([name, type]) {
  const named = name === undefined ? [0] : [1, ...text(name)];
  return [...named, ...compact(type), 0, 0];
}

const PRIMITIVES = [
  'bool', 'char', 'str', 'u8', 'u16', 'u32', 'u64', 'u128', 'u256',
  'i8', 'i16', 'i32', 'i64', 'i128', 'i256',
];

/** Definitions, each of which follows a path and no parameters. */
export const primitive = (name) => [5, PRIMITIVES.indexOf(name)];
export const composite = (...fields) => [0, ...list(fields.map(field))];
export const tuple = (...types) => [4, ...list(types.map(compact))];
export const sequence = (type) => [2, ...compact(type)];
export const array = (length, type) => [3, length, 0, 0, 0, ...compact(type)];
export const compactOf = (type) => [6, ...compact(type)];
export const bitsOf = (store, order) => [7, ...compact(store), ...compact(order)];

export function variant(...arms) {
  const spelled = arms.map(([name, fields, index]) =>
    [...text(name), ...list(fields.map(field)), index, 0]);
  return [1, ...list(spelled)];
}

export const option = (type) => ({
  path: ['Option'], of: variant(['None', [], 0], ['Some', [[undefined, type]], 1]),
});

/** A registry of these definitions, each alone or as `{ path, of }`. */
export function registryOf(...types) {
  const spelled = types.map((type, id) => {
    const { path = [], of = type } = type;
    return [...compact(id), ...list(path.map(text)), 0, ...of, 0];
  });
  return Uint8Array.from(list(spelled));
}
