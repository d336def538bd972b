// The residual sheet of a night: computed less measured places, in whole milliarcseconds. Every figure is exact, and so a bigint.
import * as elementary from './elementary.js';
import { call } from './module.js';

export class Sheet {
  constructor([count, sum, squares, largest, place, aside] = [0n, 0n, 0n, 0n, 0n, 0n]) {
    Object.assign(this, { count, sum, squares, largest, place, aside });
  }

  merge(other, moved_by) {
    const moved = other.place + BigInt(moved_by);
    let place;
    if (other.count === 0n) place = this.place;
    else if (this.count === 0n) place = moved;
    else if (this.largest !== other.largest) place = this.largest > other.largest ? this.place : moved;
    else place = this.place < moved ? this.place : moved;
    const largest = this.largest > other.largest ? this.largest : other.largest;
    return new Sheet([this.count + other.count, this.sum + other.sum, this.squares + other.squares, largest, place, this.aside + other.aside]);
  }

  mean() {
    return this.count === 0n ? null : Number(this.sum) / Number(this.count);
  }

  root_mean_square() {
    return this.count === 0n ? null : elementary.sqrt(Number(this.squares) / Number(this.count));
  }
}

export const residuals = (status, asc, dec, measured_asc, measured_dec) =>
  call('brundelak_residuals', status, asc, dec, measured_asc, measured_dec).map((figures) => new Sheet(figures));
