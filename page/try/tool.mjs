// The host's tool, which the page is compared with.
import { execFileSync } from 'node:child_process';
import { resolve } from 'node:path';

const TOOL = resolve('host/target/release/varnucht');

// What it prints. That it refuses is no failure here.
export function tool(...words) {
  try {
    return execFileSync(TOOL, words, { encoding: 'buffer', stdio: ['ignore', 'pipe', 'pipe'] });
  } catch (error) {
    if (error.status !== 1) throw error;
    return Buffer.concat([error.stdout, error.stderr]);
  }
}

// A raw sector, without the line above it.
export const dump = (path, track, sector) => tool('sector', path, track, sector).toString().trimEnd().split('\n').slice(1).join('\n');
