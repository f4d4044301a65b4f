// Runs a program of C, compiled for WASI, with the calls of crepulanter.wasm: node web.mjs KIT PROGRAM WORDS..
// The program has no memory of its own: it works in the kit's, from 1 MB on (--global-base in the Makefile).
import { readFileSync } from 'node:fs';
import { WASI } from 'node:wasi';

const [kitFile, programFile, ...words] = process.argv.slice(2);
const { instance: kit } = await WebAssembly.instantiate(readFileSync(kitFile));
const wasi = new WASI({ version: 'preview1', args: [programFile, ...words], preopens: { '.': '.' }, returnOnExit: true });
const { memory, __heap_base } = kit.exports;

if (__heap_base.value > 1048576)
    throw new Error(`the kit needs memory up to ${__heap_base.value}, the program begins at 1048576`);
memory.grow(64);        // pages of 64 KB
const { instance: program } = await WebAssembly.instantiate(readFileSync(programFile),
    { env: kit.exports, wasi_snapshot_preview1: wasi.wasiImport });
process.exitCode = wasi.start({ exports: { ...program.exports, memory } });
