import { refusals, unnamed } from './raw.js';

const named = new Map(refusals.map(([number, name, sentence]) => [number, { name, sentence }]));

/** Why a call was refused. A refused call answers nothing else, and leaves what it was lent. */
export class Refusal extends Error {
  /** The highest number that has a name. */
  static HIGHEST = Math.max(...named.keys());

  constructor(number) {
    const { name, sentence } = named.get(number) ?? { name: 'Other', sentence: unnamed };
    super(`refused by ${number}: ${sentence}`);
    this.name = 'Refusal';
    this.number = number;
    this.kind = name;
    this.sentence = sentence;
  }

  /** The refusal that a number stands for, as a status of a batch has it; null for 0, which is no refusal. */
  static from_number(number) {
    return number === 0 ? null : new Refusal(number);
  }
}
