// How much stack each function of the WebAssembly module takes, as host/tests/stack.c has it for the archives:
//
//     node stack.mjs girderbasil.wasm <SHEET
//
// The stack stands at the front of the module's memory, with nothing else before `__heap_base`, and grows towards
// address 0.
import { readFileSync } from "node:fs";
import { LAYOUTS, MOST_REPORT_BYTES, MOST_ROWS, ROW } from "../../web/girderbasil.js";

const FILLING = 0xa5;
const sheet = readFileSync(0);
const { instance } = await WebAssembly.instantiate(readFileSync(process.argv[2]));
const exports = instance.exports;
const stackSize = exports.__heap_base.value;
exports.memory.grow(4);
const memory = new Uint8Array(exports.memory.buffer);
const view = new DataView(memory.buffer);

// What the calls are lent, one after the other behind the stack.
let end = stackSize;
function place(bytes) {
    end += Math.ceil(bytes / 8) * 8;
    return end - Math.ceil(bytes / 8) * 8;
}
const answer = place(LAYOUTS.girderbasil_output.size);
const bytes = place(sheet.length);
const table = place(4 * MOST_ROWS * ROW);
const report = place(MOST_REPORT_BYTES);
const wall = place(4 * ROW);
const totals = place(LAYOUTS.girderbasil_totals.size);
memory.set(sheet, bytes);

// Calls a function: how much stack it takes.
function call(name, ...words) {
    const stack = memory.subarray(0, stackSize).fill(FILLING);
    exports[name](answer, ...words);
    const number = view.getUint32(answer, true);
    if (number !== 0) throw new Error(`${name} refused the sheet with ${number}`);
    return stackSize - stack.findIndex((byte) => byte !== FILLING);
}

function stackOf(name, ...words) {
    console.log(name, call(name, ...words));
}

stackOf("girderbasil_read", bytes, BigInt(sheet.length), table, BigInt(MOST_ROWS * ROW));
const numbers = BigInt(view.getUint32(answer + LAYOUTS.girderbasil_answer.count, true) * ROW);
stackOf("girderbasil_score", table, numbers);
stackOf("girderbasil_write_report", table, numbers, report, BigInt(MOST_REPORT_BYTES));
stackOf("girderbasil_diagnose", bytes, BigInt(sheet.length));

// The first wall of the table, after the house, the storeys and their ends. It is deleted first, so that there is room.
const row = 2 + 3 * view.getUint32(table + 4, true);
memory.copyWithin(wall, table + 4 * (row - 1) * ROW, table + 4 * row * ROW);
view.setUint32(totals + LAYOUTS.girderbasil_totals.rows, Number(numbers) / ROW, true);
stackOf("girderbasil_start", totals, table, numbers);
call("girderbasil_delete_wall", totals, table, numbers, row);
stackOf("girderbasil_add_wall", totals, table, numbers, wall);
stackOf("girderbasil_delete_wall", totals, table, numbers, row);
