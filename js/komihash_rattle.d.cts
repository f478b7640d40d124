/** A message. A string stands for its bytes in UTF-8. */
export type Message = string | ArrayBufferView | ArrayBufferLike;

/** A whole number at least 0 and below 2 ** 53, or a bigint below 2n ** 64n. */
export type Seed = number | bigint;

/** Returns the hash, below 2n ** 64n. In `map` and `Array.from`, write `(it) => komihash(it)`. */
export function komihash(message: Message, seed?: Seed, none?: undefined): bigint;
/** Returns the same as 16 hexadecimal digits. */
export function komihashHex(message: Message, seed?: Seed, none?: undefined): string;

type Version = 4 | 5;
declare class Stream<V extends Version> {
    #state;
    constructor(seed?: Seed);
    readonly version: V;
    /** Begins anew with the seed. Throws a TypeError if `resume` was not passed it. */
    reset(): this;
    update(message: Message): this;
    /** Returns another stream with all bytes so far, for whose constructor the arguments are. */
    copy(...given: unknown[]): this;
    /** Returns the hash of all bytes so far. The stream may take more. */
    digest(): bigint;
    /** Returns the same as 16 hexadecimal digits. */
    hexdigest(): string;
    /** Returns the state as at most 131 bytes. */
    save(): ReturnType<Uint8Array["slice"]>; // From TypeScript 5.9 on, Uint8Array<ArrayBuffer>.
    /** Returns the stream whose `save` returned these bytes. Throws a RangeError for others. The
     * constructor takes the further arguments, such as the seed for `reset`. */
    static resume<C extends new (...given: any) => Stream<Version>>(
        this: C, saved: ArrayBufferView | ArrayBufferLike, ...given: ConstructorParameters<C>
    ): InstanceType<C>;
}

declare class Generator<V extends Version> {
    #state;
    constructor(seed: Seed, extraSeed?: Seed);
    readonly version: V;
    /** Returns the generator that has two words as its state. Takes further arguments likewise. */
    static fromWords<C extends new (...given: any) => Generator<Version>>(
        this: C, s1: Seed, s2: Seed, ...given: ConstructorParameters<C>
    ): InstanceType<C>;
    /** Without further arguments, the constructor takes the seed 0n. */
    static fromWords<C extends new (seed: bigint) => Generator<Version>>(
        this: C, s1: Seed, s2: Seed
    ): InstanceType<C>;
    /** Returns the two words of the state, which `fromWords` takes. */
    words(): [s1: bigint, s2: bigint];
    /** Returns the next output, which is at least 0n and below 2n ** 64n. */
    next(): bigint;
    /** Fills data with the bytes of the next outputs, the lowest first, and returns it. */
    fill<A extends ArrayBufferView | ArrayBufferLike>(data: A): A;
}

/** A stream, which takes a message in pieces. */
export class Komihash extends Stream<5> {}
/** A pseudorandom generator, which is not for secrets. */
export class Komirand extends Generator<5> {}
/** The names of each version. Those above are of version 5. */
export namespace v4 {
    export { komihash, komihashHex };
    export class Komihash extends Stream<4> {}
    export class Komirand extends Generator<4> {}
}
export namespace v5 { export { komihash, komihashHex, Komihash, Komirand }; }
export {}; // Without this, TypeScript exports the rest too.
