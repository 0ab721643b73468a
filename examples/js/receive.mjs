// Writes a file as packets, loses some and receives the rest, with the WebAssembly module: node examples/js/receive.mjs MODULE
//
// It does and prints what examples/c/receive.c does. The module imports nothing; memory from __heap_base on is the caller's to lend. Lengths and all
// other numbers are BigInts, since they are 64 bits.
import { readFileSync } from "node:fs";

const { exports: library } = new WebAssembly.Instance(new WebAssembly.Module(readFileSync(process.argv[2])));

const [L1, L2, L3, W] = [5, 5, 5, 16];
const CELLS = L1 * L2 * L3, PACKET = 3 + W, HEAD = 17;

/** Lends memory for slices of these lengths, one behind the other from a multiple of 8 on, and gives their addresses. */
function lend(...lengths) {
    let end = library.__heap_base.value;
    const starts = lengths.map((length) => {
        const start = (end + 7) & ~7;
        end = start + length;
        return start;
    });
    const missing = end - library.memory.buffer.byteLength;
    if (missing > 0) library.memory.grow(Math.ceil(missing / 65536));
    return starts;
}

/** The bytes of lent memory. Growing makes older views useless, so a view is taken where it is needed. */
const bytes = (start, length) => new Uint8Array(library.memory.buffer, start, length);
const words = (start, length) => new BigUint64Array(library.memory.buffer, start, length);

/** The number of an answer, and its count. */
const number = (answer) => Number(answer & 0xffn);
const count = (answer) => BigInt.asUintN(64, answer) >> 8n;

/** A count as it stands in a pack. */
const counted = (count) => [0, 8, 16, 24].map((shift) => (count >> shift) & 0xff);

/** The pack of a file with every packet. */
function write(file) {
    const job = [...counted(5), L1, L2, L3, W & 0xff, W >> 8, ...counted(file.length), ...file, ...counted(0)];
    const [jobAt, cubeAt, outputAt] = lend(job.length, W * CELLS, HEAD + CELLS * PACKET);
    bytes(jobAt, job.length).set(job);
    const output = [outputAt, BigInt(HEAD + CELLS * PACKET)];
    const answer = library.jibrufath_write_pack(jobAt, BigInt(job.length), cubeAt, BigInt(W * CELLS), ...output);
    if (number(answer) !== 0) throw new Error(`refused ${number(answer)}`);
    return bytes(outputAt, HEAD + CELLS * PACKET).slice();
}

/** What a pack needs: cells, the bytes of a cube, and those of a file; or a refusal's number. */
function needs(air) {
    const [airAt, needsAt] = lend(air.length, 8 * 16);
    bytes(airAt, air.length).set(air);
    const answer = library.jibrufath_needs(airAt, BigInt(air.length), needsAt);
    const places = words(needsAt, 16);
    return { refused: number(answer), cells: places[4], cubeBytes: places[5], fileBytes: places[7] };
}

/** What came of a pack, in the words of the example in C, which has memory for its own shape only. */
function receive(air) {
    const { refused, cells, cubeBytes, fileBytes } = needs(air);
    if (refused !== 0) return `refused ${refused}`;
    if (cubeBytes > W * CELLS) return `no room for a cube of ${cubeBytes} bytes`;
    const [airAt, cubeAt, flagsAt, fileAt, countsAt] = lend(air.length, Number(cubeBytes), Number(cells), Number(fileBytes), 8 * 16);
    bytes(airAt, air.length).set(air);
    const answer = library.jibrufath_receive_pack(
        airAt, BigInt(air.length), cubeAt, cubeBytes, flagsAt, cells, fileAt, fileBytes, countsAt);
    const counts = words(countsAt, 16);
    if (number(answer) === 11) return `refused 11, packet ${count(answer)}`;
    if (number(answer) !== 0) return `refused ${number(answer)}`;
    if (count(answer) > 0n) return `${counts[13]} conflicts, ${count(answer)} cells left`;
    return `${counts[13]} conflicts, "${new TextDecoder().decode(bytes(fileAt, Number(counts[0])))}"`;
}

/** A pack of these of the packets of a pack. */
const packOf = (pack, packets) => Uint8Array.from([...pack.slice(0, 13), ...counted(packets.length), ...packets.flatMap((packet) => [...packet])]);

const pack = write(new TextEncoder().encode("Splice plan 17: fibre 3 to fibre 12, tray B."));
const packets = Array.from({ length: CELLS }, (_, cell) => pack.slice(HEAD + cell * PACKET, HEAD + (cell + 1) * PACKET));
console.log(`${CELLS} packets of ${W} bytes written`);
for (const planes of [2, 3]) {
    console.log(`${planes * L1 * L2} packets lost: ${receive(packOf(pack, packets.slice(planes * L1 * L2)))}`);
}
const damaged = packets.map((packet, cell) => packet.map((byte, i) => (cell < L1 * L2 && i === 3 ? byte ^ 0x10 : byte)));
const twice = packOf(pack, [...packets, ...damaged]);
console.log(`every packet twice, ${L1 * L2} damaged: ${receive(twice)}`);
twice[HEAD] = L1;
console.log(`a packet for a cell outside the cube: ${receive(twice)}`);
console.log(`a pack of another shape: ${receive(Uint8Array.from([...counted(5), 255, 255, 255, W, 0, ...counted(0), ...counted(0)]))}`);
