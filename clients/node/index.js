'use strict';

const { ScaleviewError } = require('./src/errors');
const { Bits, Empties } = require('./src/sequences');
const { Type } = require('./src/types');
const { Registry } = require('./src/registry');
const { Metadata, Named, StorageEntry } = require('./src/metadata');
const { Decoder, DecoderStream } = require('./src/decoder');

module.exports = {
  Registry, Metadata, Decoder, DecoderStream, Type, Named, StorageEntry, Bits, Empties,
  ScaleviewError,
};
