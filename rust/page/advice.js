"use strict";
// Advice beside an error: what to type instead. What is between two backticks is an example.

const ADVICE = {
  "the expression ends too soon": "Go on with a number or a name, as `2 + 3`, and close what is open, as `(2 + 3)`.",
  "the expression cannot go on like this": "Between two numbers is an operator, as `2 * 3`. A number has no commas or units. See also what can be typed, below.",
  "the parentheses are too deep": "Give an inner part a name in a line above, as `x = 1 + 2`.",
  "this is no number": "A number is `3`, `0.25`, `1/3`, `1 1/2`, `15%` or `1.5e3`.",
  "the denominator is 0": "Type another number behind the slash, as `1/2`.",
  "the exponent has more than five digits": "Type a power, as `10^1000`.",
  "nothing has this name": "Give it a value in a line above, as `NAME = 3/7`.",
  "there is no such call": "The calls are CALLS, as `max(1/2, 2/3)`.",
  "the call takes another number of arguments": "One number: `floor(7/2)`. Two: `nearest(355/113, 10)`. One or more: `max(1, 2, 3)`.",
  "this takes numbers, and not true or false": "Compare once, and last, as `1/2 + 1/3 < 1`.",
  "the bound is below 1": "The second number is the largest denominator, as `nearest(355/113, 10)`.",
  "there is nothing between equal numbers": "Type two numbers that differ, as `between(1/3, 1/2)`.",
  "this divides by 0": "Type another number behind the sign, as `1 / 2`.",
  "the exponent is no whole number": "Such a power is mostly no fraction. Type a whole exponent, as `2^3`.",
  "the power may have more than a million bits": "Type a smaller exponent, as `2^1000`.",
  "the numbers have more than a million bits together": "Take numbers with fewer digits, as `2^100 * 3^100`.",
};

// The advice on a reason, for what the line has from its place on. A reason that says itself what to type, behind the column, needs none.
function adviceOn(reason, rest) {
  const [, why, behind] = /^error: (.*), at column \d+(.*)$/.exec(reason);
  const said = behind === "" ? ADVICE[why] ?? "" : "";
  const calls = [...document.querySelectorAll("#calls code")].map((part) => part.textContent).join(", ");
  const advice = Object.assign(document.createElement("span"), { className: "advice" });
  advice.append(...said.replace("NAME", /^\w*/.exec(rest)[0]).replace("CALLS", calls).split("`").map((text, k) => k % 2 === 0 ? text : codeOf(text)));
  return advice;
}

function codeOf(text) {
  return Object.assign(document.createElement("code"), { textContent: text });
}
