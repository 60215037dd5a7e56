import scaleview from './index.js';

export const {
  Registry, Metadata, Decoder, DecoderStream, Type, Named, StorageEntry, Bits, Empties,
  ScaleviewError,
} = scaleview;
