// From the plane to pixels, and the ink of many legs.

class View {
  constructor(inDegrees, middle) {
    // A degree east is as much shorter as it is on the Earth at the middle of the data.
    const latitude = Math.min(Math.max(middle / UNITS, -85), 85);
    this.narrow = inDegrees ? Math.cos((latitude * Math.PI) / 180) : 1;
    this.inDegrees = inDegrees;
    this.x = this.y = 0;
    // Pixels a unit upwards.
    this.up = 1;
    this.width = this.height = 1;
  }

  // Pixels a unit to the right.
  get across() {
    return this.up * this.narrow;
  }

  pixelOf(x, y) {
    return [(x - this.x) * this.across + this.width / 2, this.height / 2 - (y - this.y) * this.up];
  }

  placeOf([right, down]) {
    return [this.x + (right - this.width / 2) / this.across, this.y - (down - this.height / 2) / this.up];
  }

  // The least and the greatest x and y that are seen, as left, low, right, high.
  box() {
    const [left, high] = this.placeOf([0, 0]);
    const [right, low] = this.placeOf([this.width, this.height]);
    return [left, low, right, high];
  }

  meets([left, low, right, high]) {
    const box = this.box();
    return left <= box[2] && right >= box[0] && low <= box[3] && high >= box[1];
  }

  // Shows a box, with a margin.
  fit([left, low, right, high], margin = 0.08) {
    const room = 1 - 2 * margin;
    const wide = Math.max(right - left, 1) * this.narrow;
    const tall = Math.max(high - low, 1);
    this.up = this.bounded(Math.min((this.width * room) / wide, (this.height * room) / tall));
    this.x = (left + right) / 2;
    this.y = (low + high) / 2;
  }

  bounded(up) {
    return Math.min(Math.max(up, 1e-13), 50);
  }

  zoom(factor, pixel) {
    const [x, y] = this.placeOf(pixel);
    this.up = this.bounded(this.up * factor);
    const [u, v] = this.placeOf(pixel);
    this.x += x - u;
    this.y += y - v;
  }

  pan(right, down) {
    this.x -= right / this.across;
    this.y += down / this.up;
  }

  // The name of what is seen and of how; ink that has it needs no new beginning.
  key() {
    return [this.x, this.y, this.up, this.width, this.height].join();
  }
}

// The part of a line in a rectangle from 0 0, as x, y, u, v; nothing where none is.
function clipped(x, y, u, v, wide, high) {
  let [first, last] = [0, 1];
  for (const [start, way, most] of [[x, u - x, wide], [y, v - y, high]]) {
    if (way) {
      const [one, two] = [-start / way, (most - start) / way];
      first = Math.max(first, Math.min(one, two));
      last = Math.min(last, Math.max(one, two));
    } else if (start < 0 || start > most) return null;
  }
  if (first > last) return null;
  return [x + (u - x) * first, y + (v - y) * first, x + (u - x) * last, y + (v - y) * last];
}

// The pixels of a part of a strip: where a level keeps positions, and at both ends of a time window.
class Parts {
  constructor(tracks) {
    this.tracks = tracks;
    this.pixels = new Float64Array(1024);
  }

  // Where the part is, as x, y, x, y, .. in `pixels`; returns how many points it has.
  take(view, level, strip, from, to) {
    const { tracks } = this;
    const { kept, at } = level;
    const [begin, end] = [at[strip], at[strip + 1] - 1];
    const { times } = tracks;
    const [first, last] = [times[kept[begin]], times[kept[end]]];
    if (first > to || last < from) return 0;
    const start = from <= first ? begin : tracks.lastBefore(kept, begin, end, from);
    const stop = to >= last ? end : tracks.lastBefore(kept, start, end, to);
    const room = 2 * (stop - start + 3);
    if (this.pixels.length < room) this.pixels = new Float64Array(2 * room);
    this.count = 0;
    if (from > first) this.between(view, kept, start, from);
    else this.add(view, tracks.x[kept[start]], tracks.y[kept[start]]);
    for (let place = start + 1; place <= stop; place++) {
      this.add(view, tracks.x[kept[place]], tracks.y[kept[place]]);
    }
    if (to < last && to > times[kept[stop]]) this.between(view, kept, stop, to);
    return this.count;
  }

  // The legs of a level that end after one moment and by another one, whole.
  takeWhole(view, level, strip, from, to) {
    const { x, y, times } = this.tracks;
    const { kept, at } = level;
    const [begin, end] = [at[strip], at[strip + 1] - 1];
    this.count = 0;
    if (times[kept[begin]] > to || times[kept[end]] <= from) return 0;
    const start = this.tracks.lastBefore(kept, begin, end, from);
    const stop = this.tracks.lastBefore(kept, start, end, to);
    if (stop === start) return 0;
    const room = 2 * (stop - start + 1);
    if (this.pixels.length < room) this.pixels = new Float64Array(2 * room);
    for (let place = start; place <= stop; place++) this.add(view, x[kept[place]], y[kept[place]]);
    return this.count;
  }

  add(view, x, y) {
    const place = 2 * this.count++;
    this.pixels[place] = (x - view.x) * view.across + view.width / 2;
    this.pixels[place + 1] = view.height / 2 - (y - view.y) * view.up;
  }

  // Adds the point between two kept positions at a moment.
  between(view, kept, place, moment) {
    const { x, y, times } = this.tracks;
    const [one, two] = [kept[place], kept[Math.min(place + 1, kept.length - 1)]];
    const span = times[two] - times[one];
    const part = span > 0 ? Math.min((moment - times[one]) / span, 1) : 0;
    this.add(view, x[one] + (x[two] - x[one]) * part, y[one] + (y[two] - y[one]) * part);
  }
}

// How much ink lies on each pixel. What is added stays, so that tracks grow without a new beginning.
class Ink {
  constructor() {
    this.canvas = document.createElement("canvas");
    this.wide = this.high = 0;
    this.key = "";
  }

  begin(wide, high) {
    if (this.wide !== wide || this.high !== high) {
      Object.assign(this, { wide, high });
      this.canvas.width = wide;
      this.canvas.height = high;
      this.context = this.canvas.getContext("2d");
      this.image = this.context.createImageData(wide, high);
      this.colours = new Uint32Array(this.image.data.buffer);
      this.amounts = new Uint32Array(wide * high);
    } else this.amounts.fill(0);
  }

  // Adds points that are joined, in pixels times a ratio.
  add(pixels, count, ratio) {
    const { amounts, wide } = this;
    const [right, low] = [wide - 2, this.high - 2];
    let x = pixels[0] * ratio - 0.5;
    let y = pixels[1] * ratio - 0.5;
    const last = Math.max(count, 2);
    for (let place = 1; place < last; place++) {
      const at = place < count ? 2 * place : 0;
      const u = pixels[at] * ratio - 0.5;
      const v = pixels[at + 1] * ratio - 0.5;
      const isInside = x >= 0 && y >= 0 && u >= 0 && v >= 0 && x <= right && u <= right && y <= low && v <= low;
      const length = Math.max(Math.abs(u - x), Math.abs(v - y));
      if (isInside && length <= 1) {
        // A short leg is one dot, as dark as it is long.
        const [column, row] = [x | 0, y | 0];
        const weight = length > 0.5 ? 16 * length : 8;
        const isSteep = Math.abs(v - y) > Math.abs(u - x);
        const rest = (weight * (isSteep ? x - column : y - row)) | 0;
        amounts[row * wide + column] += weight - rest;
        amounts[row * wide + column + (isSteep ? 1 : wide)] += rest;
      } else if (isInside) this.line(x, y, u, v);
      else this.cut(x, y, u, v, right, low);
      x = u;
      y = v;
    }
  }

  // Adds the part of a line that lies inside, if any.
  cut(x, y, u, v, right, low) {
    if ((x < 0 && u < 0) || (y < 0 && v < 0) || (x > right && u > right) || (y > low && v > low)) return;
    const inside = clipped(x, y, u, v, right, low);
    if (inside) this.line(...inside);
  }

  // Spreads each step of a line over the two pixels beside it.
  line(x, y, u, v) {
    const { amounts, wide } = this;
    const [across, down] = [u - x, v - y];
    const isSteep = Math.abs(down) > Math.abs(across);
    const length = Math.max(Math.abs(across), Math.abs(down));
    const steps = Math.max(Math.ceil(length), 1);
    const weight = 16 * Math.min(Math.max(length, 0.5) / steps, 1);
    const beside = isSteep ? 1 : wide;
    for (let step = 0; step < steps; step++) {
      const left = x + (across * step) / steps;
      const top = y + (down * step) / steps;
      const [column, row] = [left | 0, top | 0];
      const rest = (weight * (isSteep ? left - column : top - row)) | 0;
      const place = row * wide + column;
      amounts[place] += weight - rest;
      amounts[place + beside] += rest;
    }
  }

  // Turns amounts into the colours of a ramp.
  show(ramp) {
    const { amounts, colours } = this;
    const most = ramp.length - 1;
    for (let place = 0; place < amounts.length; place++) {
      const amount = amounts[place];
      colours[place] = ramp[amount > most ? most : amount];
    }
    this.context.putImageData(this.image, 0, 0);
  }
}

// The colours of amounts of ink: from nothing over the first colour at one line to the last at many.
function inkRamp(first, last) {
  const ramp = new Uint32Array(4096);
  for (let amount = 1; amount < ramp.length; amount++) {
    const opaque = Math.min(amount / 16, 1);
    const dense = Math.min(Math.max(Math.log2(amount / 16) / 6, 0), 1);
    const [red, green, blue] = first.map((it, place) => Math.round(it + (last[place] - it) * dense));
    ramp[amount] = ((Math.round(opaque * 235) << 24) | (blue << 16) | (green << 8) | red) >>> 0;
  }
  return ramp;
}
