"use strict";
// The keypad for a phone: signs, and names above them. A key types at the cursor of the line that was used last, which keeps the focus.

// What is on a key, what it types or does, and how a screen reader says it, where that is not what is on it.
const SIGNS = [
  ["7"], ["8"], ["9"], ["/", "/", "divided by"], ["(", "(", "opening parenthesis"], [")", ")", "closing parenthesis"],
  ["4"], ["5"], ["6"], ["×", "*", "times"], ["^", "^", "to the power"], ["%", "%", "percent"],
  ["1"], ["2"], ["3"], ["−", "-", "minus"], ["<", "<", "less than"], [">", ">", "greater than"],
  ["0"], [".", ".", "point"], [",", ",", "comma"], ["+", "+", "plus"], ["=", "=", "equals"], ["␣", " ", "space"],
  ["←", "left", "cursor left"], ["→", "right", "cursor right"], ["⌫", "erase", "erase"], ["⏎", "enter", "new line"],
];
const DEEDS = {
  left: (input) => move(input, -1),
  right: (input) => move(input, 1),
  erase: (input) => erase(input),
  enter: (input) => input.dispatchEvent(new KeyboardEvent("keydown", { key: "Enter", bubbles: true, cancelable: true })),
};

function move(input, by) {
  const at = Math.max(0, Math.min(input.value.length, (by < 0 ? input.selectionStart : input.selectionEnd) + by));
  input.setSelectionRange(at, at);
}

function typeInto(input, text) {
  input.setRangeText(text, input.selectionStart, input.selectionEnd, "end");
  input.dispatchEvent(new Event("input", { bubbles: true }));
}

function erase(input) {
  if (input.selectionStart === input.selectionEnd && input.selectionStart > 0) {
    input.setSelectionRange(input.selectionStart - 1, input.selectionStart);
  }
  typeInto(input, "");
}

// A key for the input that `target` gives.
function keyOf([face, deed = face, said = face], target) {
  const key = document.createElement("button");
  Object.assign(key, { type: "button", textContent: face, className: deed === "erase" || deed === "enter" ? "wide" : "" });
  key.setAttribute("aria-label", said);
  key.addEventListener("pointerdown", (event) => event.preventDefault());
  key.addEventListener("click", () => {
    const input = target();
    if (document.activeElement !== key) {
      input.focus({ preventScroll: true });
    }
    (DEEDS[deed] ?? ((at) => typeInto(at, deed)))(input);
  });
  return key;
}

function drawSigns(box, target) {
  box.replaceChildren(...SIGNS.map((sign) => keyOf(sign, target)));
}

// The names that lines give values to, the last one first.
function namesOf(lines) {
  return lines.map((text) => /^\s*([A-Za-z_]\w*)\s*=/.exec(text)?.[1]).filter((name) => name !== undefined).reverse();
}

// The keys of names: those of the lines, `x`, `ans`, and the calls that the page explains.
function drawNames(box, lines, target) {
  const names = [...new Set([...namesOf(lines), "x", "ans"])], calls = [...document.querySelectorAll("#calls code")].map((part) => part.textContent);
  if (box.dataset.names !== names.join(" ")) {
    box.dataset.names = names.join(" ");
    box.replaceChildren(...names.map((name) => keyOf([name], target)), ...calls.map((call) => keyOf([call, `${call}(`], target)));
  }
}
