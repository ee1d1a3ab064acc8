// Tests of girderbasil.js, for node's own test runner: `tools/archive wasm32`, then `node --test web/girderbasil.test.js`.
import assert from "node:assert/strict";
import { readFileSync } from "node:fs";
import { test } from "node:test";
import { runInNewContext } from "node:vm";

import { LINE, load, MOST_REPORT_BYTES, MOST_ROWS, ROW } from "./girderbasil.js";

const beside = (path) => readFileSync(new URL(path, import.meta.url));
const wasm = beside("../target/archive/wasm32/girderbasil.wasm");
const sheet = new Uint8Array(beside("../examples/p1.sheet"));
const refused = new Uint8Array(beside("../examples/refused.sheet"));
const library = await load(wasm);

const accepted = { number: 0, row: 0, column: 0 };
const report =
    "       6       1       1     920    1600     100      83      47\n" +
    "       6       1       2    1600    1600     100      83      83\n" +
    "       7       4      47       0       0       0       0       0\n";

const text = (bytes) => new TextDecoder().decode(bytes);

// The fields of 64 bits that a record has for the two scores of one storey.
function leftOver(hundredths, remainders, divisors) {
    const six = (numbers) => [...numbers, 0n, 0n, 0n, 0n];
    return { hundredths: six(hundredths), remainders: six(remainders), divisors: six(divisors) };
}

// P1's record.
const record = {
    scores: [47, 83, 0, 0, 0, 0],
    count: 2,
    verdict: 4,
    startedBy31May1981: 1,
    ...leftOver([47n, 83n], [352000000000n, 128000000000n], [384000000000n, 384000000000n]),
};

// The table that a sheet has.
function tableOf(bytes) {
    const table = new Uint32Array(MOST_ROWS * ROW);
    return table.subarray(0, library.read(bytes, table).count * ROW);
}

test("P1 is read, scored, reported and diagnosed", () => {
    const table = new Uint32Array(MOST_ROWS * ROW).fill(7);
    assert.deepEqual(library.read(sheet, table), { ...accepted, count: 12 });
    assert.deepEqual([...table.subarray(0, 16)], [1, 1, 2, 100, 1, 1, 0, 0, 2, 1, 4000, 5000, 1, 0, 0, 0]);
    assert.deepEqual([...table.subarray(80, 88)], [5, 8191, 8, 0, 0, 0, 0, 0]);
    assert.deepEqual([...table.subarray(88, 96)], [8, 19800401, 19801001, 20120401, 0, 0, 0, 0]);
    assert.ok(table.subarray(96).every((number) => number === 7));

    const house = table.subarray(0, 96);
    assert.deepEqual(library.score(house), { ...accepted, ...record });

    const bytes = new Uint8Array(200).fill(7);
    assert.deepEqual(library.writeReport(house, bytes), { ...accepted, count: 195 });
    assert.equal(text(bytes.subarray(0, 195)), report);
    assert.ok(bytes.subarray(195).every((byte) => byte === 7));

    const output = library.diagnose(sheet);
    assert.deepEqual({ ...output, bytes: null }, { ...accepted, count: 195, bytes: null });
    assert.equal(text(output.bytes), report.padEnd(MOST_REPORT_BYTES, "\0"));
});

test("the record says whether work started by 31 May 1981, on that day too", () => {
    const house = tableOf(sheet).slice();
    for (const [start, started] of [[19810531, 1], [19810601, 0]]) {
        house.set([start, 19820101], 89);
        const { number, startedBy31May1981 } = library.score(house);
        assert.deepEqual([number, startedBy31May1981], [0, started]);
    }
});

// P1 on a hundredth of its area.
function small() {
    const house = tableOf(sheet).slice();
    house[10] = 40;
    for (const ends of [19, 27]) house.set([10, 10], ends);
    return house;
}

test("a score at its limit has its own whole hundredths beside it", () => {
    assert.deepEqual(library.score(small()), {
        ...accepted,
        ...record,
        scores: [999, 999, 0, 0, 0, 0],
        verdict: 1,
        ...leftOver([4791n, 8333n], [2560000000n, 1280000000n], [3840000000n, 3840000000n]),
    });
});

// What is divided is 1,000 times what is held, in 0.000001 kN, times 100 for layout and 20 for the points that are sound. With
// 300 walls of 200 kN that is more than a number of JavaScript holds exactly.
test("hundredths, remainder and divisor give back what was divided", () => {
    const p1 = [...tableOf(sheet)];
    const walls = Array(300).fill([4, 1, 1, 2, 100, 20000, 1, 1]);
    const strong = Uint32Array.from([...p1.slice(0, 32), ...walls.flat(), ...p1.slice(80)]);
    for (const [house, held] of [
        [tableOf(sheet), [9200000n, 16000000n]],
        [small(), [9200000n, 16000000n]],
        [strong, [60000000000n, 0n]],
    ]) {
        const { scores, hundredths, remainders, divisors } = library.score(house);
        for (const each of [0, 1]) {
            assert.equal(hundredths[each] * divisors[each] + remainders[each], 1000n * held[each] * 100n * 20n);
            assert.ok(remainders[each] < divisors[each]);
            assert.equal(scores[each], Math.min(Number(hundredths[each]), 999));
        }
    }
});

test("a refusal has its number and place, and changes nothing that was lent", () => {
    const table = new Uint32Array(96).fill(7);
    const misprinted = sheet.slice();
    misprinted.set(new TextEncoder().encode("   02000"), 4 * LINE + 5 * 8);
    assert.deepEqual(library.read(misprinted, table), { number: 2, row: 5, column: 6, count: 0 });
    assert.deepEqual(library.read(sheet, table.subarray(1)), { number: 9, row: 0, column: 0, count: 0 });
    assert.deepEqual(library.read(new Uint8Array(0), table), { number: 1, row: 0, column: 0, count: 0 });
    assert.ok(table.every((number) => number === 7));

    const house = tableOf(refused);
    const bytes = new Uint8Array(MOST_REPORT_BYTES).fill(7);
    const place = { number: 6, row: 3, column: 4 };
    const nothing = { scores: [0, 0, 0, 0, 0, 0], count: 0, verdict: 0, startedBy31May1981: 0 };
    const none = leftOver([0n, 0n], [0n, 0n], [0n, 0n]);
    assert.deepEqual(library.score(house), { ...place, ...nothing, ...none });
    assert.deepEqual(library.writeReport(house, bytes), { ...place, count: 0 });
    const short = library.writeReport(tableOf(sheet), bytes.subarray(0, 194));
    assert.deepEqual(short, { number: 9, row: 0, column: 0, count: 0 });
    assert.ok(bytes.every((byte) => byte === 7));

    const output = library.diagnose(refused);
    assert.equal(text(output.bytes.subarray(0, output.count)), "       0       6       3       4" + "       0".repeat(4) + "\n");
});

// P1 on site: its table with room for some rows more, of fives, and totals that are not started.
function onSite(rows = 2) {
    const table = new Uint32Array(96 + rows * ROW).fill(5);
    table.set(tableOf(sheet));
    return { table, totals: { held: new BigUint64Array(6).fill(9n), rows: 12 } };
}

// A wall of 2 m in X, and what P1's walls hold.
const wall = Uint32Array.of(4, 1, 1, 2, 20, 2000, 1, 1);
const held = (x, y, above = 0n) => BigUint64Array.of(x, y, above, above, above, above);

test("walls are drawn in and rubbed out, each time with the new scores", () => {
    const { table, totals } = onSite();
    assert.deepEqual(library.start(totals, table), { ...accepted, ...record });
    assert.deepEqual(totals, { held: held(9200000n, 16000000n), rows: 12 });
    assert.deepEqual(table, onSite().table);

    const p1 = [...tableOf(sheet)];
    const fives = Array(ROW).fill(5);
    const added = library.addWall(totals, table, wall);
    assert.deepEqual([added.number, added.scores.slice(0, 2)], [0, [68, 83]]);
    assert.deepEqual(totals, { held: held(13200000n, 16000000n), rows: 13 });
    assert.deepEqual([...table], [...p1.slice(0, 80), ...wall, ...p1.slice(80), ...fives]);

    const deleted = library.deleteWall(totals, table, 6);
    assert.deepEqual([deleted.number, deleted.scores.slice(0, 2)], [0, [62, 83]]);
    assert.deepEqual(totals, { held: held(12000000n, 16000000n), rows: 12 });
    const rows = [...p1.slice(0, 40), ...p1.slice(48, 80), ...wall, ...p1.slice(80)];
    assert.deepEqual([...table], [...rows, ...Array(ROW).fill(0), ...fives]);
    assert.deepEqual(library.score(table.subarray(0, 96)), deleted);

    const opened = library.addWall(totals, table, Uint32Array.of(4, 1, 2, 2, 0, 3001, 0, 3));
    assert.deepEqual([opened.number, opened.scores.slice(0, 2)], [0, [62, 88]]);
    assert.deepEqual(totals, { held: held(12000000n, 16900000n), rows: 13 });
});

test("a refused change leaves the table and the totals alone", () => {
    const changed = (column, number) => Object.assign(wall.slice(), { [column - 1]: number });
    for (const [call, rows, place] of [
        [(totals, table) => library.deleteWall(totals, table, 11), 12, [12, 11, 0]],
        [(totals, table) => library.deleteWall(totals, table, 4294967295), 12, [12, 4294967295, 0]],
        [(totals, table) => library.deleteWall(totals, table, 5), 12, [12, 0, 0]],
        [(totals, table) => library.addWall(totals, table, changed(2, 2)), 12, [4, 11, 2]],
        [(totals, table) => library.addWall(totals, table, changed(2, 0)), 12, [4, 5, 2]],
        [(totals, table) => library.addWall(totals, table, changed(1, 5)), 12, [4, 11, 1]],
        [(totals, table) => library.addWall(totals, table.subarray(0, 103), wall), 12, [9, 0, 0]],
        [(totals, table) => library.start(totals, table), 11, [3, 12, 1]],
        [(totals, table) => library.start(totals, table), 0, [1, 0, 0]],
        [(totals, table) => library.start(totals, table), 15, [1, 0, 0]],
        [(totals, table) => library.start(totals, table), 4294967295, [1, 0, 0]],
    ]) {
        const { table, totals } = onSite();
        totals.rows = rows;
        const { number, row, column, count } = call(totals, table);
        assert.deepEqual([number, row, column, count], [...place, 0]);
        assert.deepEqual([table, totals], [onSite().table, { held: held(9n, 9n, 9n), rows }]);
    }
});

// Totals of a storey that the house lacks are nobody's, and may be more than a number of JavaScript holds exactly.
test("only the total of a wall's own storey and direction moves", () => {
    const { table, totals } = onSite();
    totals.held = held(59996000000n, 0n, 2n ** 64n - 1n);
    assert.equal(library.addWall(totals, table, wall).number, 0);
    assert.deepEqual(totals, { held: held(60000000000n, 0n, 2n ** 64n - 1n), rows: 13 });
    const { number, row, column } = library.addWall(totals, table, wall);
    assert.deepEqual([number, row, column], [12, 0, 0]);
});

test("totals, a wall and a row of another kind are a TypeError that names them", () => {
    const { table, totals } = onSite();
    const right = { start: [totals, table], addWall: [totals, table, wall], deleteWall: [totals, table, 6] };
    const wrong = (method, index, value, message) => {
        const words = right[method].map((word, each) => (each === index ? value : word));
        assert.throws(() => library[method](...words), { name: "TypeError", message: `${method}: the ${message}` });
    };
    for (const method of Object.keys(right)) {
        wrong(method, 0, undefined, "totals.held must be a BigUint64Array, not nothing");
        const plain = { held: Array(6).fill(0n), rows: 12 };
        wrong(method, 0, plain, "totals.held must be a BigUint64Array, not a value of type Array");
        wrong(method, 0, { held: new BigUint64Array(5), rows: 12 }, "totals.held must have 6 numbers, not 5");
        for (const rows of [-1, 1.5, 2 ** 32, NaN]) {
            wrong(method, 0, { ...totals, rows }, `totals.rows must be a whole number of 32 bits, not ${rows}`);
        }
        const long = { ...totals, rows: 12n };
        wrong(method, 0, long, "totals.rows must be a whole number of 32 bits, not a value of type BigInt");
        wrong(method, 1, [1], "table must be a Uint32Array, not a value of type Array");
    }
    wrong("addWall", 2, [...wall], "wall must be a Uint32Array, not a value of type Array");
    for (const length of [0, 7, 9]) {
        wrong("addWall", 2, new Uint32Array(length), `wall must have 8 numbers, not ${length}`);
    }
    for (const row of [-1, 0.5, 2 ** 32]) {
        wrong("deleteWall", 2, row, `row must be a whole number of 32 bits, not ${row}`);
    }
    wrong("deleteWall", 2, "6", "row must be a whole number of 32 bits, not a value of type String");
    assert.deepEqual([table, totals], [onSite().table, onSite().totals]);
});

test("only what is lent is filled, wherever it stands", () => {
    const numbers = new Uint32Array(108).fill(7);
    assert.equal(library.read(sheet, numbers.subarray(5, 101)).count, 12);
    assert.ok([...numbers.subarray(0, 5), ...numbers.subarray(101)].every((number) => number === 7));
    const bytes = new Uint8Array(300).fill(7);
    assert.equal(library.writeReport(numbers.subarray(5, 101), bytes.subarray(3, 198)).count, 195);
    assert.ok([...bytes.subarray(0, 3), ...bytes.subarray(198)].every((byte) => byte === 7));
    assert.equal(text(bytes.subarray(3, 198)), report);
});

test("arguments may share a buffer: each is copied", () => {
    const buffer = new ArrayBuffer(96 * 4);
    const house = new Uint32Array(buffer);
    house.set(tableOf(sheet));
    assert.equal(library.writeReport(house, new Uint8Array(buffer)).count, 195);
    assert.equal(text(new Uint8Array(buffer, 0, 195)), report);
});

test("an answer is its owner's: a later call leaves it alone", () => {
    const [output, scoring] = [library.diagnose(sheet), library.score(tableOf(sheet))];
    library.diagnose(refused);
    library.score(tableOf(refused));
    assert.equal(text(output.bytes.subarray(0, 195)), report);
    assert.deepEqual(scoring, { ...accepted, ...record });
});

test("memory grows with what is given and what is lent", async () => {
    const bytes = new Uint8Array(20_000_000).fill(32);
    const numbers = new Uint32Array(5_000_000);
    const house = tableOf(sheet);
    const refusedWhole = { number: 1, row: 0, column: 0, count: 0 };
    const totals = { held: new BigUint64Array(6), rows: 12 };
    const calls = [
        [(fresh) => fresh.read(bytes, new Uint32Array(1)), refusedWhole],
        [(fresh) => fresh.diagnose(bytes).number, 1],
        [(fresh) => fresh.score(numbers).number, 1],
        [(fresh) => fresh.read(sheet, numbers), { ...accepted, count: 12 }],
        [(fresh) => fresh.writeReport(house, bytes), { ...accepted, count: 195 }],
        [(fresh) => fresh.start(totals, numbers).scores[0], 47],
        [(fresh) => fresh.addWall(totals, numbers, wall).scores[0], 68],
        [(fresh) => fresh.deleteWall(totals, numbers, 11).scores[0], 47],
    ];
    for (const [call, answer] of calls) assert.deepEqual(call(await load(wasm)), answer);
    assert.equal(text(bytes.subarray(0, 196)), report + " ");
});

test("nothing may be given, and nothing lent", () => {
    const nothing = { number: 1, row: 0, column: 0, count: 0 };
    assert.deepEqual(library.read(new Uint8Array(0), new Uint32Array(0)), nothing);
    assert.deepEqual(library.writeReport(new Uint32Array(0), new Uint8Array(0)), nothing);
    assert.equal(library.score(new Uint32Array(0)).number, 1);
    assert.equal(library.diagnose(new Uint8Array(0)).number, 1);
});

test("arrays of node, of other frames and of other classes are arrays", () => {
    assert.equal(library.diagnose(Buffer.from(sheet)).count, 195);
    const foreign = runInNewContext("new Uint8Array(1000)");
    foreign.set(sheet);
    assert.equal(library.diagnose(foreign.subarray(0, sheet.length)).count, 195);
    class Sheet extends Uint8Array {
        get [Symbol.toStringTag]() {
            return "Sheet";
        }
    }
    assert.equal(library.diagnose(Sheet.from(sheet)).count, 195);
});

test("an array is as long as it is, whatever it says", () => {
    library.diagnose(sheet);
    const line = Object.defineProperty(sheet.slice(0, LINE), "length", { value: sheet.length });
    assert.deepEqual({ ...library.diagnose(line), bytes: null }, { number: 3, row: 2, column: 1, count: LINE, bytes: null });
});

test("another kind of argument is a TypeError that names it", () => {
    const table = new Uint32Array(96);
    const bytes = new Uint8Array(MOST_REPORT_BYTES);
    const methods = {
        read: [["sheet", sheet], ["table", table]],
        score: [["table", table]],
        writeReport: [["table", table], ["report", bytes]],
        diagnose: [["sheet", sheet]],
    };
    const never = [undefined, null, 7, 7n, "       1", true, [1, 2], {}, new ArrayBuffer(8), new DataView(new ArrayBuffer(8)),
        new Int32Array(8), new Uint8ClampedArray(8), new Uint16Array(8), { length: 8, [Symbol.toStringTag]: "Uint32Array" },
        Object.defineProperty(new Int32Array(8), Symbol.toStringTag, { value: "Uint32Array" })];
    for (const [method, parameters] of Object.entries(methods)) {
        for (const [index, [name, right]] of parameters.entries()) {
            const other = right instanceof Uint8Array ? table : bytes;
            for (const wrong of [...never, other]) {
                const words = parameters.map(([, value], each) => (each === index ? wrong : value));
                const kind = right instanceof Uint8Array ? "Uint8Array" : "Uint32Array";
                const message = new RegExp(`^${method}: the ${name} must be a ${kind}, not `);
                assert.throws(() => library[method](...words), { name: "TypeError", message });
            }
        }
    }
    assert.throws(() => library.read(sheet), { name: "TypeError", message: "read: the table must be a Uint32Array, not nothing" });
});

test("an array whose memory is gone is a TypeError that names it", () => {
    const gone = new Uint8Array(sheet);
    structuredClone(gone.buffer, { transfer: [gone.buffer] });
    const table = new Uint32Array(96);
    const message = (method, name) => new RegExp(`^${method}: the ${name}'s memory is gone`);
    assert.throws(() => library.diagnose(gone), { name: "TypeError", message: message("diagnose", "sheet") });
    assert.throws(() => library.writeReport(table, gone), { name: "TypeError", message: message("writeReport", "report") });
});

test("the module is loaded from its bytes or compiled", async () => {
    const compiled = await WebAssembly.compile(wasm);
    const buffer = new Uint8Array(wasm).buffer;
    for (const source of [wasm, new Uint8Array(wasm), buffer, new DataView(buffer), compiled]) {
        const loaded = await load(source);
        assert.equal(loaded.diagnose(sheet).count, 195);
    }
});

test("anything else is not loaded", async () => {
    for (const wrong of [undefined, null, "girderbasil.wasm", 7, {}, [0], new Response(wasm), Promise.resolve(wasm)]) {
        await assert.rejects(load(wrong), { name: "TypeError", message: /^load: the source must be the bytes of girderbasil\.wasm / });
    }
    await assert.rejects(load(new Uint8Array(8)), WebAssembly.CompileError);
    const empty = Uint8Array.of(0, 0x61, 0x73, 0x6d, 1, 0, 0, 0);
    await assert.rejects(load(empty), { name: "TypeError", message: "load: this module is not girderbasil.wasm: it has no girderbasil_read" });
});
