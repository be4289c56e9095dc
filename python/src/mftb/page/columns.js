// Reads the blocks of data: base64, deflated, and columns of whole numbers in planes of bytes.

const EARTH = 6371008.8;
const UNITS = 1e7;

function bytesOf(name) {
  const raw = atob(document.getElementById("data-" + name).textContent.trim());
  const bytes = new Uint8Array(raw.length);
  for (let place = 0; place < raw.length; place++) bytes[place] = raw.charCodeAt(place);
  return bytes;
}

async function inflated(name) {
  const stream = new Blob([bytesOf(name)]).stream();
  const plain = stream.pipeThrough(new DecompressionStream("deflate"));
  return new Uint8Array(await new Response(plain).arrayBuffer());
}

async function objectIn(name) {
  return JSON.parse(new TextDecoder().decode(await inflated(name)));
}

// The columns of a block, by their names; of each a number's sign is in its lowest bit, and it is
// the difference from its neighbour.
async function columnsIn(name, shapes) {
  const bytes = await inflated(name);
  const found = {};
  let at = 0;
  for (const [key, [count, unit, planes]] of Object.entries(shapes)) {
    found[key] = column(bytes.subarray(at, at + count * planes), count, unit, planes);
    at += count * planes;
  }
  return found;
}

function column(bytes, count, unit, planes) {
  const numbers = new Float64Array(count);
  let weight = 1;
  for (let plane = 0; plane < planes; plane++) {
    const start = plane * count;
    for (let place = 0; place < count; place++) numbers[place] += bytes[start + place] * weight;
    weight *= 256;
  }
  let sum = 0;
  for (let place = 0; place < count; place++) {
    const folded = numbers[place];
    const half = Math.floor(folded / 2);
    sum += half * 2 === folded ? half : -half - 1;
    numbers[place] = sum * unit;
  }
  return numbers;
}

// Numbers and moments as texts

// The exact decimal of a coordinate in units of 10^-7.
function decimal(units) {
  const sign = units < 0 ? "-" : "";
  const digits = String(Math.abs(units)).padStart(8, "0");
  const rest = digits.slice(-7).replace(/0+$/, "");
  return sign + digits.slice(0, -7) + (rest ? "." + rest : "");
}

function twoDigits(number) {
  return String(number).padStart(2, "0");
}

// A moment in milliseconds since 1970 as an instant in UTC, to the millisecond.
function instant(milliseconds) {
  const text = new Date(Math.round(milliseconds)).toISOString();
  return text.replace(".000Z", "Z");
}

const SPANS = [
  ["d", 86400000],
  ["h", 3600000],
  ["min", 60000],
  ["s", 1000],
];

// A span of time in words: its two greatest units.
function spanWords(milliseconds) {
  if (milliseconds < 1000) return `${Number(milliseconds.toFixed(3))} ms`;
  const words = [];
  let rest = Math.round(milliseconds);
  for (const [word, size] of SPANS) {
    const count = word === "s" && !words.length ? rest / size : Math.floor(rest / size);
    if (count && words.length < 2) words.push(`${Number(count.toFixed(3))} ${word}`);
    else if (words.length) break;
    rest -= Math.floor(count) * size;
  }
  return words.join(" ");
}

function several(count, what) {
  return `${count.toLocaleString("en")} ${what}${count === 1 ? "" : "s"}`;
}

// The greatest of 1, 2 and 5 with zeros that is not above a length.
function nice(length) {
  const power = 10 ** Math.floor(Math.log10(length));
  const digit = [5, 2, 1].find((it) => it * power <= length * (1 + 1e-9)) || 1;
  return digit * power;
}
