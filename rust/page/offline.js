"use strict";
// The page without a network. What the server sent last is kept, and shown where the server does not answer.

const KEPT = "bakhsney";

// The files that the page names.
async function files() {
  const page = await (await fetch("index.html")).text();
  return [...page.matchAll(/ (?:href|src)="([\w.]+)"/g)].map(([, file]) => file);
}

async function keep() {
  const kept = await caches.open(KEPT);
  await kept.addAll(["./", "index.html", ...await files()]);
}

async function answer(request) {
  const kept = await caches.open(KEPT);
  try {
    const response = await fetch(request);
    if (response.ok) {
      await kept.put(request, response.clone());
    }
    return response;
  } catch {
    return await kept.match(request, { ignoreVary: true }) ?? Response.error();
  }
}

addEventListener("install", (event) => event.waitUntil(keep()));
addEventListener("fetch", (event) => event.respondWith(answer(event.request)));
