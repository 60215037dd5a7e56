// What the checked programs use of Node, so that no package of types is needed.

declare module 'node:stream' {
  export class Transform {
    constructor(options?: object);
    end(bytes?: Uint8Array): this;
    on(event: string, listener: (value: any) => void): this;
  }
}

declare module 'node:fs' {
  export function readFileSync(path: URL | string): Buffer;
}

interface Buffer extends Uint8Array {
  toString(encoding?: string): string;
}

declare const Buffer: {
  from(data: Uint8Array | string, encoding?: string): Buffer;
};
