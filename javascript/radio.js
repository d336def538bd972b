// Lists over the radio link.
import { call } from './module.js';
import { figures } from './raw.js';
import { fields } from './record.js';

export const MOST_BYTES = figures.MOST_RADIO_BYTES;

export const open = (bytes) => call('brundelak_radio_open', bytes);

export function star(bytes, place) {
  const [number, asc, dec, asc_rate, dec_rate, next] = call('brundelak_radio_star', bytes, place);
  return [{ number, asc, dec, asc_rate, dec_rate }, next];
}

export const accept = (bytes) => call('brundelak_radio_accept', bytes)[0];
export const put_head = (out, place, count) => call('brundelak_radio_put_head', out, place, count)[0];
export const put_star = (out, place, star) => call('brundelak_radio_put_star', out, place, ...fields(star))[0];
export const radio_to_list = (bytes, out) => call('brundelak_radio_to_list', bytes, out)[0];
export const list_to_radio = (bytes, out) => call('brundelak_list_to_radio', bytes, out)[0];
