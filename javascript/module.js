// The wasm32 module: it is loaded once, and called by what the header declares. It asks for nothing of whoever loads it.
import { functions } from './raw.js';
import { Refusal } from './refusal.js';

const place = new URL('./brundelak.wasm', import.meta.url);

async function bytes() {
  if (place.protocol === 'file:' && typeof process === 'object' && process.versions?.node) {
    const { readFile } = await import('node:fs/promises');
    return readFile(place);
  }
  const answer = await fetch(place);
  if (!answer.ok) throw new Error(`brundelak: cannot load ${place}: ${answer.status}`);
  return answer.arrayBuffer();
}

const { exports } = (await WebAssembly.instantiate(await bytes(), {})).instance;
const { memory } = exports;
/** Where the memory begins that is no stack and no table: what a call is lent lies from there on, and no longer than the call. */
const start = exports.__heap_base.value;

const ARRAYS = {
  uint8_t: Uint8Array, uint32_t: Uint32Array, int32_t: Int32Array, uint64_t: BigUint64Array, int64_t: BigInt64Array, double: Float64Array,
};

const RANGES = { uint8_t: [0, 255], uint32_t: [0, 4294967295], int32_t: [-2147483648, 2147483647], uint64_t: [0n, 18446744073709551615n] };

/** Room for so many bytes from `start` on. */
function room(size) {
  const missing = start + size - memory.buffer.byteLength;
  if (missing > 0) memory.grow(Math.ceil(missing / 65536));
}

/** A number that is given, as the module takes it; a wrong type, or a whole number that has no such value, is an error of the caller. */
function taken(type, name, value) {
  if (type === 'double') {
    if (typeof value !== 'number') throw new TypeError(`${name} is no number`);
    return value;
  }
  const wide = type === 'uint64_t';
  if (!(wide && typeof value === 'bigint') && !Number.isInteger(value)) throw new TypeError(`${name} is no whole number`);
  const [least, most] = RANGES[type];
  if (value < least || value > most) throw new RangeError(`${name} is not within ${least} to ${most}`);
  return wide ? BigInt(value) : value;
}

/** What is lent, of the elements that the module takes. What is only read may be an array of numbers. */
function lent(type, name, value, read) {
  const array = ARRAYS[type];
  if (value instanceof array) return value;
  if (array === Uint8Array && value instanceof Uint8ClampedArray) return value;
  if (read && Array.isArray(value)) return array.from(value, (one) => taken(type, `an element of ${name}`, one));
  throw new TypeError(`${name} is no ${array.name}`);
}

/** One element as JavaScript has it: places and indices, which are below a slice's length, are numbers. */
function shown(type, value) {
  return type === 'uint64_t' ? Number(value) : value;
}

/** Calls an entry point with what it is given, numbers and slices in their order. Answers its status, and what it left: a number for each
 * pointer of its own, an array for each that leads to more. What it was lent is changed where the call is answered. */
export function status_of(symbol, ...given) {
  const [, parameters] = functions[symbol];
  const places = [];
  const words = [];
  let size = 0;
  // what is lent lies at a multiple of 8
  const lay = (type, count) => {
    const at = start + size;
    size += Math.ceil((ARRAYS[type].BYTES_PER_ELEMENT * count) / 8) * 8;
    return at;
  };
  for (const [type, name, many] of parameters) {
    const read = type.startsWith('const ');
    const sort = type.replace('const ', '').replace(' *', '');
    if (many === 'slice') {
      const value = lent(sort, name, given.shift(), read);
      const at = lay(sort, value.length);
      places.push({ sort, at, count: value.length, value, read });
      words.push(at, BigInt(value.length));
    } else if (many === 0) {
      words.push(taken(sort, name, given.shift()));
    } else if (many !== 'length') {
      // an array that the call changes is given; what it only answers is not
      const value = many > 1 && given.length > 0 ? lent(sort, name, given.shift(), true) : null;
      if (value && value.length !== many) throw new RangeError(`${name} has not ${many} elements`);
      const at = lay(sort, many);
      places.push({ sort, at, count: many, value, answer: true });
      words.push(at);
    }
  }
  if (given.length > 0) throw new TypeError(`${symbol} takes fewer arguments`);
  room(size);
  for (const { sort, at, count, value } of places) {
    if (value) new ARRAYS[sort](memory.buffer, at, count).set(value);
  }
  const status = exports[symbol](...words);
  const answers = [];
  for (const { sort, at, count, value, read, answer } of places) {
    const now = new ARRAYS[sort](memory.buffer, at, count);
    if (answer) answers.push(count === 1 ? shown(sort, now[0]) : now.slice());
    else if (!read && status === 0) value.set(now);
  }
  return [status, answers];
}

/** The same, of a call that is answered: what it left. A refused one is thrown. */
export function call(symbol, ...given) {
  const [status, answers] = status_of(symbol, ...given);
  if (status !== 0) throw Refusal.from_number(status);
  return answers;
}

/** A function of numbers with one answer. */
export const one = (symbol) => (...given) => call(symbol, ...given)[0];

/** The number of the module's version. */
export const version_number = () => exports.brundelak_version() >>> 0;
