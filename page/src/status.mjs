// What the page says of what was done: one line that screen readers read out.
import { Refused } from '../../js/varnucht.js';
import { byId } from './dom.mjs';

export function say(text, refused = false) {
  byId('status').textContent = text;
  byId('status').classList.toggle('refused', refused);
}

export const refusedWords = ({ number, slot, words: why }) => `Refused ${number}${slot ? `, slot ${slot}` : ''}: ${why}`;

export const whyNot = (error) => (error instanceof Refused ? refusedWords(error) : error.message);

// Does something that may be refused. A refusal is said and nothing else happens; what is no refusal is a fault, and is said too.
export function attempt(run) {
  const failed = (error) => {
    say(whyNot(error), true);
    const known = [Refused, SyntaxError, RangeError, DOMException];
    if (!known.some((kind) => error instanceof kind)) throw error;
  };
  try {
    const done = run();
    return done instanceof Promise ? done.catch(failed) : done;
  } catch (error) {
    return failed(error);
  }
}
