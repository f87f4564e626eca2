// Gives the lines of standard input to the module of the page, as the page's worker does:   node rust/calculator/rows.js MODULE <LINES
"use strict";
const fs = require("fs");

const engine = fs.readFileSync(`${__dirname}/../page/engine.js`, "utf8");
const worker = new Function("postMessage", "close", `let onmessage; ${engine}; engineMain(); return (data) => onmessage({ data });`);
const put = worker(({ piece, fault = "" }) => fs.writeSync(1, piece === undefined ? fault : `${piece}\n`), () => {});
put({ module: new WebAssembly.Module(fs.readFileSync(process.argv[2])) });
put({ call: "ratio_sheet_rows", text: fs.readFileSync(0, "utf8").trimEnd(), number: 6 });
