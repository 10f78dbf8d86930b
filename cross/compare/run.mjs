// Runs a program that was compiled for wasm32 with freestanding/wasm.c, and prints what it says: run.mjs PROGRAM.wasm
import { readFileSync, writeSync } from 'node:fs';

let said = '';
const say = (at, length) => { said += Buffer.from(exports.memory.buffer, at, length).toString('latin1'); };
const { exports } = new WebAssembly.Instance(new WebAssembly.Module(readFileSync(process.argv[2])), { env: { say } });
process.exitCode = exports.__main_void();
writeSync(1, said);
