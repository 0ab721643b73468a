// Plays recorded calls on the library's wasm module, as targets/play.c does on an archive: node targets/play.mjs MODULE FILE
//
// The file is one of `compare --record`; rust/compare/src/record.rs says its form.
import { readFileSync } from "node:fs";

/** The byte beside lent memory; at least so many stand there, and up to so many more. How many differences are told in full. */
const BESIDE = 0xa5, LEAST = 64, MORE = 61, TOLD = 10;

/** The calls of the field, which take and give bytes. All other numbers are of 64 bits. */
const FIELD = ["mul", "inverse", "pow"];

let played = 0, differences = 0, playing = "";
const counts = new Map();

function fail(why) {
    console.error(`play: call ${played} ${playing}: ${why}`);
    process.exit(1);
}

function differs(what) {
    differences++;
    if (differences <= TOLD) console.log(`call ${played}, ${playing}: ${what}`);
}

/** A file, read from its beginning. */
class File {
    constructor(path) {
        this.bytes = readFileSync(path);
        this.at = 0;
    }

    take(len) {
        if (len > this.bytes.length - this.at) fail("the file is cut");
        this.at += len;
        return this.bytes.subarray(this.at - len, this.at);
    }

    byte = () => this.take(1)[0];
    u32 = () => this.take(4).readUInt32LE();
    u64 = () => this.take(8).readBigUInt64LE();

    /** What stands behind a byte for how many there are. */
    list = (item) => Array.from({ length: this.byte() }, item);

    slice = () => {
        const before = this.take(this.u32());
        return { before, after: this.byte() === 0 ? before : this.take(before.length) };
    };

    /** The bytes of an array's places. */
    array = () => {
        const after = this.take(8 * this.byte());
        return { before: Buffer.alloc(after.length, BESIDE), after };
    };

    call = () => ({
        name: this.take(this.byte()).toString("latin1"),
        slices: this.list(this.slice),
        numbers: this.list(this.u64),
        arrays: this.list(this.array),
        answer: this.u64(),
    });
}

/** Gives slices, from call to call at other alignments, and arrays, which are of words, their places from a start on. Says where they end. */
function layOut(start, { slices, arrays }) {
    let end = start;
    slices.forEach((slice, i) => {
        slice.name = `slice ${i}`;
        slice.start = end + LEAST + ((played * 7 + i * 13) % MORE);
        end = slice.start + slice.before.length;
    });
    arrays.forEach((array, i) => {
        array.name = `array ${i}`;
        array.start = (end + LEAST + 7) & ~7;
        end = array.start + array.before.length;
    });
    return end + LEAST;
}

/** These bytes of memory, which grows where it has less. */
function lend(memory, start, end) {
    const missing = end - memory.buffer.byteLength;
    if (missing > 0) memory.grow(Math.ceil(missing / 65536));
    return Buffer.from(memory.buffer, start, end - start).fill(BESIDE);
}

function compareMemory(memory, expected, start, parts) {
    if (memory.equals(expected)) return;
    const at = expected.findIndex((byte, i) => memory[i] !== byte);
    const [held, not] = [memory, expected].map((bytes) => bytes[at].toString(16).toUpperCase().padStart(2, "0"));
    const inside = ({ start: first, before }) => first <= start + at && start + at < first + before.length;
    const part = parts.find(inside);
    if (part) differs(`${part.name}, byte ${start + at - part.start} is ${held}h, and not ${not}h`);
    else differs("a byte beside a slice or an array has changed");
}

/** What the call answers, where it comes to an end. */
function answerOf(run, name, slices, numbers, arrays) {
    const parameters = [
        ...slices.flatMap((slice) => [slice.start, BigInt(slice.before.length)]),
        ...(FIELD.includes(name) ? numbers.map(Number) : numbers),
        ...arrays.map((array) => array.start),
    ];
    if (run.length !== parameters.length) fail("it takes another number of parameters");
    try {
        return BigInt.asUintN(64, BigInt(run(...parameters)));
    } catch (trap) {
        fail(trap.message);
    }
}

function play(exports, call) {
    const { name, slices, numbers, arrays, answer: recorded } = call;
    playing = name;
    const run = exports[`jibrufath_${name}`] ?? fail("there is no such call");
    const start = exports.__heap_base.value;
    const end = layOut(start, call);
    const memory = lend(exports.memory, start, end);
    const expected = Buffer.alloc(end - start, BESIDE);
    const parts = [...slices, ...arrays];
    for (const part of parts) {
        memory.set(part.before, part.start - start);
        expected.set(part.after, part.start - start);
    }
    const answer = answerOf(run, name, slices, numbers, arrays);
    if (answer !== recorded) differs(`the answer is ${answer}, and not ${recorded}`);
    compareMemory(memory, expected, start, parts);
    counts.set(name, (counts.get(name) ?? 0) + 1);
    playing = "";
}

const [module, path] = process.argv.slice(2);
if (path === undefined) {
    console.error("usage: node play.mjs MODULE FILE");
    process.exit(2);
}
const { exports } = new WebAssembly.Instance(new WebAssembly.Module(readFileSync(module)));
const file = new File(path);
for (const recorded = file.u64(); played < recorded; played++) play(exports, file.call());
if (file.at < file.bytes.length) fail("the file has bytes behind the last call");
console.log([...counts].map(([name, count]) => `${name} ${count}`).join(", "));
console.log(`${played} calls, ${differences} differences`);
process.exitCode = played === 0 || differences > 0 ? 1 : 0;
