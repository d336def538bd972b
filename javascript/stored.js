// What a call that answers a list star by star has stored: shared by batch and rotation.
import * as list from './list.js';
import { Refusal } from './refusal.js';

export const result = (status, asc, dec) => Refusal.from_number(status) ?? { asc, dec };

// each star of a list with what a call stored of it
export function by_star(bytes, store) {
  // room for every record of the longest list: more bytes are no list, which is the call's to refuse, after the days
  const records = Math.min(list.MOST_STARS, Math.floor(bytes.length / list.RECORD_BYTES));
  const [status, asc, dec] = [new Uint8Array(records), new Float64Array(records), new Float64Array(records)];
  store(status, asc, dec);
  const all = [];
  // the record of a star that is shown is the one that ends at the next place, whatever was passed over before it
  for (let shown = list.star(bytes, 0); shown !== null; shown = list.star(bytes, shown[1])) {
    const i = shown[1] / list.RECORD_BYTES - 1;
    all.push([shown[0], result(status[i], asc[i], dec[i])]);
  }
  return all;
}
