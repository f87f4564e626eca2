"use strict";
// Loading the module. Each function throws a sentence that says why the calculator cannot run, where it cannot.

// The bytes of the module: those in this page, if it has any, or those of the file beside it.
async function moduleBytes(file) {
  if (typeof WebAssembly !== "object") {
    throw "This browser has no WebAssembly, so the calculator cannot run in it.";
  }
  const within = document.getElementById("module");
  if (within !== null) {
    return Uint8Array.from(atob(within.textContent.trim()), (letter) => letter.charCodeAt(0));
  }
  if (location.protocol === "file:") {
    throw "This page was opened from a file, and so the browser does not load the calculator. Run rust/page/serve, and open the address that it prints. The file fractions.html, which rust/page/build makes, needs no server.";
  }
  const response = await fetch(file).catch(() => { throw `The server did not send the file ${file}. Check that the server runs, and load this page again.`; });
  if (!response.ok) {
    throw `The file ${file} is missing beside this page (status ${response.status}). Run rust/page/build, which makes it, and load this page again.`;
  }
  return response.arrayBuffer();
}

function compiled(bytes, file) {
  return WebAssembly.compile(bytes)
    .catch(() => { throw `The file ${file} is not a whole WebAssembly module. Run rust/page/build, which makes it, and load this page again.`; });
}

// Keeps the files of the page for visits without a network. The page in one file has no others.
function keepPage() {
  if (document.getElementById("module") === null) {
    navigator.serviceWorker?.register("offline.js").catch(() => {});
  }
}

// Starts the page, or says why it cannot.
function begin(start) {
  start().catch((why) => {
    document.getElementById("notice").textContent = "";
    document.getElementById("failure").textContent = typeof why === "string" ? why : `The calculator could not start: ${why.message}.`;
  });
}
