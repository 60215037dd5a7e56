'use strict';

/* Where in a value its bytes are rejected. */

const { addon } = require('./native');
const { unshared } = require('./arguments');

const NUMBERS_OF_A_STEP = 3;

/** The path with one more step: a type, the position of its arm, and that of the part. */
function withStep(types, path, [type, arm, part]) {
  const info = types.of(type);
  const variant = info.kind === 'variant' ? info.arms[arm] : undefined;
  const name = (variant ?? info).fields[part]?.name;
  const entered = variant === undefined ? path : `${path}.${variant.name}`;
  return name === undefined ? `${entered}[${part}]` : `${entered}.${name}`;
}

function pathOf(open, type, limits, bytes) {
  open.state(type, limits);
  const numbers = addon.pathOf(unshared(bytes));
  if (numbers === undefined) return undefined;
  let path = 'value';
  for (let at = 0; at < numbers.length; at += NUMBERS_OF_A_STEP) {
    path = withStep(open.types, path, numbers.subarray(at, at + NUMBERS_OF_A_STEP));
  }
  return path;
}

/** Adds to an error where in the value its bytes are rejected, unless there is no memory for it. */
function located(error, open, type, limits, bytes) {
  if (error.part !== 'value' || error.place === undefined) return error;
  try {
    const path = pathOf(open, type, limits, bytes);
    if (path !== undefined) error.path = path;
  } catch {
    // The error stays as it is.
  }
  return error;
}

module.exports = { located };
