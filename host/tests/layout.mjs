// Prints the layouts and sizes of web/girderbasil.js, a line each, in the words of host/tests/layout.rs.
import { LAYOUTS, LINE, MOST_REPORT_BYTES, MOST_ROWS, MOST_WALLS, ROW } from "../../web/girderbasil.js";

for (const [name, { size, ...fields }] of Object.entries(LAYOUTS)) {
    console.log(`size of ${name} = ${size}`);
    for (const [field, offset] of Object.entries(fields)) console.log(`${name}.${field} = ${offset}`);
}
const sizes = { LINE, ROW, MOST_WALLS, MOST_ROWS, MOST_REPORT_BYTES };
for (const [name, size] of Object.entries(sizes)) console.log(`${name} = ${size}`);
