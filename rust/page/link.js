"use strict";
// The link that carries the lines, and copying. The lines are in the part of the address behind `#`, which no browser sends.

const LINK_LENGTH = 8000;

const element = (id) => document.getElementById(id);
const told = element("told"), link = element("link"), noLink = element("no-link"), copyLink = element("copy-link");

// The page's address with these parts, of which one is `lines`, or null if it is too long.
function addressOf(parts) {
  if (parts.lines.length > LINK_LENGTH) {
    return null;
  }
  const held = Object.entries(parts).map(([name, text]) => `${name}=${encodeURIComponent(text.toWellFormed())}`);
  const address = `${location.href.split("#")[0]}#${held.join("&")}`;
  return address.length > LINK_LENGTH ? null : address;
}

function renewLink(parts) {
  const address = addressOf(parts);
  noLink.hidden = address !== null;
  copyLink.disabled = address === null;
  if (address === null) {
    link.removeAttribute("href");
  } else {
    link.href = address;
  }
}

// The parts in the page's address, or null if it has no lines.
function partsOfAddress() {
  const pairs = location.hash.slice(1).split("&").map((pair) => [pair.split("=")[0], pair.slice(pair.indexOf("=") + 1)]);
  try {
    const parts = Object.fromEntries(pairs.map(([name, text]) => [name, decodeURIComponent(text)]));
    return parts.lines === undefined ? null : parts;
  } catch {
    told.textContent = "The lines of this link could not be read: a part of it is missing or wrong.";
    return null;
  }
}

async function copy(text, name) {
  try {
    await navigator.clipboard.writeText(text);
    told.textContent = `${name} copied.`;
  } catch {
    told.textContent = "This browser does not let the page copy. Select the text, or use the menu of the link.";
  }
}

copyLink.addEventListener("click", () => copy(link.href, "The link is"));
