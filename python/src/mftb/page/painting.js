// Paints the map: lines of the frame, tracks, zones, rectangles, answers, crossings, names.

// Up to so many legs in view are drawn as lines; more are ink on pixels.
const FEW = 12000;
// Up to so many pixels of the screen have ink of their own.
const FINE = 3000000;

class Painter {
  constructor(canvas, tracks, head) {
    Object.assign(this, { canvas, tracks, head });
    this.context = canvas.getContext("2d");
    this.parts = new Parts(tracks);
    this.ink = new Ink();
    this.ratio = 1;
    this.shapes = { zones: head.zones.map(zonePath), rectangles: head.rectangles.map((it) => it.sides) };
  }

  // Takes the colours of the page's style.
  restyle(palettes) {
    const style = getComputedStyle(document.documentElement);
    const value = (name) => style.getPropertyValue(name).trim();
    const names = ["paper", "ink", "soft", "leg", "dense", "zone", "rectangle", "select", "muted"];
    this.colours = Object.fromEntries(names.map((name) => [name, value(`--${name}`)]));
    this.palette = palettes[value("--palette")];
    this.ramp = inkRamp(rgb(this.colours.leg), rgb(this.colours.dense));
    this.ink.key = "";
  }

  resize(view) {
    const { clientWidth, clientHeight } = this.canvas;
    this.ratio = window.devicePixelRatio || 1;
    this.canvas.width = Math.round(clientWidth * this.ratio);
    this.canvas.height = Math.round(clientHeight * this.ratio);
    view.width = Math.max(clientWidth, 1);
    view.height = Math.max(clientHeight, 1);
  }

  colourOf(feature) {
    const number = this.numbers.get(feature);
    return number === undefined ? this.colours.select : this.palette[number % this.palette.length];
  }

  // Paints all; `scene` says what is seen and when.
  paint(scene) {
    const { context, view } = Object.assign(this, { view: scene.view });
    context.setTransform(this.ratio, 0, 0, this.ratio, 0, 0);
    context.fillStyle = this.colours.paper;
    context.fillRect(0, 0, view.width, view.height);
    context.lineCap = context.lineJoin = "round";
    const coarse = scene.isDraft ? 3 : 0.7;
    this.level = this.tracks.level(coarse / view.across, coarse / view.up);
    this.numbers = scene.numbers;
    this.ringPlaces = [];
    this.grid();
    if (scene.shows.areas) this.areas(true);
    if (scene.shows.tracks) this.base(scene);
    for (const layer of scene.layers) this.spans(layer, scene.window);
    if (scene.shows.areas) this.areas(false);
    if (scene.selected) this.selection(scene);
    if (scene.shows.rings) for (const layer of scene.layers) this.rings(layer, scene);
    if (scene.isMoving) this.heads(scene);
    if (scene.shows.names) this.names(scene);
    if (scene.hasCross) this.cross();
    this.axes();
  }

  // Tracks

  // The strips in view.
  *seen(begin = 0, end = this.tracks.strips) {
    const [left, low, right, high] = this.view.box();
    const { tracks } = this;
    for (let strip = begin; strip < end; strip++) {
      if (tracks.right[strip] < left || tracks.left[strip] > right) continue;
      if (tracks.high[strip] < low || tracks.low[strip] > high) continue;
      yield strip;
    }
  }

  base(scene) {
    let legs = 0;
    const strips = [];
    for (const strip of this.seen()) {
      legs += this.level.at[strip + 1] - this.level.at[strip] - 1;
      strips.push(strip);
    }
    this.isInk = legs > FEW;
    if (this.isInk) this.inked(strips, scene);
    else this.lines(strips, scene.window, this.colours.leg, 1.3);
  }

  // Draws strips as lines.
  lines(strips, [from, to], colour, width) {
    this.stroke(strips.map((strip) => [strip, from, to]), colour, width, 1);
  }

  // Draws parts of strips, each between two moments, as lines; a part of fewer points than the least is left out.
  stroke(pieces, colour, width, least) {
    const { context, parts, view } = this;
    context.strokeStyle = colour;
    context.lineWidth = width;
    let points = 0;
    context.beginPath();
    for (const [strip, from, to] of pieces) {
      const count = parts.take(view, this.level, strip, from, to);
      if (count >= least) trace(context, parts.pixels, count, view);
      points += count;
      if (points > 2000) {
        context.stroke();
        context.beginPath();
        points = 0;
      }
    }
    context.stroke();
  }

  // Draws strips as ink; if only time has gone on, what is new is added.
  inked(strips, scene) {
    const { ink, parts, view } = this;
    const [from, to] = scene.window;
    const pixels = view.width * view.height * this.ratio * this.ratio;
    const ratio = pixels > FINE ? 1 : this.ratio;
    const key = [view.key(), ratio, from, scene.isDraft].join();
    const isGrowing = ink.key === key && ink.until <= to && from === -Infinity;
    if (!isGrowing) ink.begin(Math.round(view.width * ratio), Math.round(view.height * ratio));
    const begin = isGrowing ? ink.until : -Infinity;
    let added = 0;
    for (const strip of strips) {
      const count =
        from === -Infinity
          ? parts.takeWhole(view, this.level, strip, begin, to)
          : parts.take(view, this.level, strip, from, to);
      if (count) ink.add(parts.pixels, count, ratio);
      added += count;
    }
    if (!isGrowing || added) ink.show(this.ramp);
    Object.assign(ink, { key, until: to });
    this.context.drawImage(ink.canvas, 0, 0, view.width, view.height);
    if (from === -Infinity && scene.isMoving) this.unfinished(strips, to);
  }

  // Draws the legs that are under way at a moment: they are no ink yet.
  unfinished(strips, moment) {
    const { context, level, parts, tracks, view } = this;
    context.strokeStyle = this.colours.leg;
    context.lineWidth = 1;
    context.beginPath();
    for (const strip of this.under(strips, moment)) {
      const place = tracks.lastBefore(level.kept, level.at[strip], level.at[strip + 1] - 1, moment);
      const count = parts.take(view, level, strip, tracks.times[level.kept[place]], moment);
      if (count > 1) trace(context, parts.pixels, count, view);
    }
    context.stroke();
  }

  // Where each feature is now: the grey ones first, and then each colour.
  heads(scene) {
    const { context, view } = this;
    const byColour = new Map([[this.colours.dense, []]]);
    for (const strip of this.under(this.seen(), scene.now)) {
      const feature = this.tracks.stripFeature[strip];
      const place = this.tracks.placeOn(this.tracks.legAtMoment(strip, scene.now), scene.now);
      const colour = scene.isColoured(feature) ? this.colourOf(feature) : this.colours.dense;
      if (!byColour.has(colour)) byColour.set(colour, []);
      byColour.get(colour).push(view.pixelOf(...place));
    }
    for (const [colour, pixels] of byColour) {
      const size = colour !== this.colours.dense ? 4.5 : pixels.length > 400 ? 1.6 : 2.6;
      context.fillStyle = colour;
      context.beginPath();
      for (const [right, down] of pixels) {
        context.moveTo(right + size, down);
        context.arc(right, down, size, 0, 7);
      }
      context.fill();
    }
  }

  // The strips that are under way at a moment.
  *under(strips, moment) {
    const { times, stripAt } = this.tracks;
    for (const strip of strips) {
      if (times[stripAt[strip]] <= moment && times[stripAt[strip + 1] - 1] >= moment) yield strip;
    }
  }

  // Answers

  // Draws the parts of tracks that a layer has, by colour.
  spans(layer, window) {
    const [features, firsts, lasts] = layer.spans;
    const byColour = new Map();
    for (let place = 0; place < features.length; place++) {
      const from = Math.max(firsts[place], window[0]);
      const to = Math.min(lasts[place], window[1]);
      if (from > to) continue;
      const colour = this.colourOf(features[place]);
      if (!byColour.has(colour)) byColour.set(colour, []);
      byColour.get(colour).push([features[place], from, to]);
    }
    const width = layer.kind === "features" ? 2 : 2.8;
    for (const [colour, spans] of byColour) this.stroke(this.piecesOf(spans), colour, width, 2);
  }

  // The parts of strips in view that spans of features have.
  *piecesOf(spans) {
    const { stripAt, times } = this.tracks;
    for (const [feature, from, to] of spans) {
      const begin = this.tracks.stripFrom(feature, from);
      for (const strip of this.seen(begin, this.tracks.featureStrip[feature + 1])) {
        if (times[stripAt[strip]] > to) break;
        yield [strip, from, to];
      }
    }
  }

  // A ring at each crossing that has come.
  rings(layer, scene) {
    const { context, view } = this;
    const [from, to] = scene.window;
    for (const ring of layer.rings) {
      const [feature, moment, x, y] = ring;
      const [right, down] = view.pixelOf(x, y);
      if (moment < from || moment > to || !isNear(view, right, down)) continue;
      context.beginPath();
      context.arc(right, down, 5, 0, 7);
      context.fillStyle = this.colours.paper;
      context.fill();
      context.strokeStyle = this.colourOf(feature);
      context.lineWidth = 2;
      context.stroke();
      if (this.ringPlaces.length < 200) this.ringPlaces.push([right - 7, down, right + 7]);
    }
  }

  // Draws what is selected: the feature's track, its leg, and the place on it.
  selection({ selected, window }) {
    const { context, tracks, view } = this;
    const [begin, end] = [tracks.featureStrip[selected.feature], tracks.featureStrip[selected.feature + 1]];
    const strips = [...this.seen(begin, end)];
    context.globalAlpha = 0.35;
    this.lines(strips, window, this.colours.select, 6);
    context.globalAlpha = 1;
    if (selected.leg < 0) return;
    this.lines(strips, [tracks.times[selected.leg], tracks.times[selected.leg + 1]], this.colours.select, 3);
    const [right, down] = view.pixelOf(...selected.place);
    context.beginPath();
    context.arc(right, down, 7, 0, 7);
    context.strokeStyle = this.colours.ink;
    context.lineWidth = 2;
    context.stroke();
  }

  // Zones and rectangles

  areas(isFill) {
    const { view } = this;
    this.shapes.zones.forEach((zone) => {
      if (!view.meets(zone.box)) return;
      const width = zone.kind === "line" ? 3 : 1.8;
      this.area(zone.rings, isFill, zone.kind === "polygon", this.colours.zone, width);
    });
    for (const [left, low, right, high] of this.shapes.rectangles) {
      const isFlat = left === right || low === high;
      const ring = [left, low, right, low, right, high, left, high, left, low].map((it) => it * UNITS);
      this.area([ring], isFill, !isFlat, this.colours.rectangle, isFlat ? 3 : 1.8);
    }
  }

  // Fills rings, or draws their edges.
  area(rings, isFill, hasInside, colour, width) {
    const { context, view } = this;
    if (isFill && !hasInside) return;
    context.beginPath();
    for (const ring of rings) {
      const pixels = pixelsOf(ring, view);
      if (isFill) polygon(context, cutRing(pixels, view));
      else trace(context, pixels, pixels.length / 2, view);
    }
    context.fillStyle = context.strokeStyle = colour;
    context.lineWidth = width;
    context.globalAlpha = isFill ? 0.12 : 1;
    if (isFill) context.fill("evenodd");
    else context.stroke();
    context.globalAlpha = 1;
  }

  // Words

  names(scene) {
    const { context, view } = this;
    this.placed = this.ringPlaces;
    context.font = "600 12px system-ui, sans-serif";
    context.textBaseline = "middle";
    if (scene.shows.areas) this.areaNames();
    for (const [feature, place] of scene.named()) {
      const [right, down] = view.pixelOf(...place);
      const words = scene.label(feature);
      const wide = context.measureText(words).width;
      const places = [[9, 0], [-9 - wide, 0], [9, -14], [9, 14], [-9 - wide, -14], [-9 - wide, 14]];
      if (isNear(view, right, down)) {
        places.some(([x, y]) => this.word(words, right + x, down + y, wide, this.colourOf(feature)));
      }
    }
  }

  areaNames() {
    const { context, view, colours } = this;
    for (const zone of this.shapes.zones) {
      const wide = context.measureText(zone.name).width;
      const [right, down] = view.pixelOf(...zone.middle);
      this.word(zone.name, right - wide / 2, down, wide, colours.zone);
    }
    this.head.rectangles.forEach(({ name, sides }) => {
      const wide = context.measureText(name).width;
      const [right, down] = view.pixelOf(sides[2] * UNITS, sides[3] * UNITS);
      this.word(name, right - wide, down - 12, wide, colours.rectangle);
    });
  }

  // Writes a word, where none stands yet; returns whether it did.
  word(text, left, down, wide, colour) {
    const { context, placed, view } = this;
    if (!isNear(view, left + wide / 2, down)) return true;
    if (placed.some((it) => left < it[2] && left + wide > it[0] && Math.abs(down - it[1]) < 14)) return false;
    placed.push([left, down, left + wide]);
    context.lineWidth = 4;
    context.strokeStyle = this.colours.paper;
    context.strokeText(text, left, down);
    context.fillStyle = colour;
    context.fillText(text, left, down);
    return true;
  }

  // Lines at round values of x and y.
  grid() {
    const { context, view } = this;
    context.strokeStyle = this.colours.soft;
    context.lineWidth = 1;
    context.beginPath();
    this.ticks = { x: this.rounds(0), y: this.rounds(1) };
    for (const value of this.ticks.x) {
      const right = Math.round(view.pixelOf(value, 0)[0]) + 0.5;
      context.moveTo(right, 0);
      context.lineTo(right, view.height);
    }
    for (const value of this.ticks.y) {
      const down = Math.round(view.pixelOf(0, value)[1]) + 0.5;
      context.moveTo(0, down);
      context.lineTo(view.width, down);
    }
    context.stroke();
  }

  // The round values of an axis in view, in units.
  rounds(axis) {
    const box = this.view.box();
    const [least, most] = [box[axis], box[axis + 2]];
    const step = Math.max(nice(130 / (axis ? this.view.up : this.view.across)), 1);
    const found = [];
    for (let number = Math.ceil(least / step); number <= most / step && found.length < 40; number++) {
      found.push(Math.round(number * step));
    }
    return found;
  }

  // The values at the lines.
  axes() {
    const { context, view } = this;
    context.font = "11px system-ui, sans-serif";
    context.textBaseline = "middle";
    const write = (text, right, down) => {
      context.lineWidth = 3;
      context.strokeStyle = this.colours.paper;
      context.strokeText(text, right, down);
      context.fillStyle = this.colours.muted;
      context.fillText(text, right, down);
    };
    for (const value of this.ticks.x) {
      const right = view.pixelOf(value, 0)[0];
      if (right > 60 && right < view.width - 60) write(decimal(value), right + 4, 10);
    }
    for (const value of this.ticks.y) {
      const down = view.pixelOf(0, value)[1];
      if (down > 24 && down < view.height - 50) write(decimal(value), 6, down - 8);
    }
  }

  // The cross at the middle, for those who use keys.
  cross() {
    const { context, view } = this;
    const [right, down] = [view.width / 2, view.height / 2];
    context.strokeStyle = this.colours.select;
    context.lineWidth = 1.5;
    context.beginPath();
    context.moveTo(right - 10, down);
    context.lineTo(right + 10, down);
    context.moveTo(right, down - 10);
    context.lineTo(right, down + 10);
    context.stroke();
  }
}

// Traces points that are joined; what lies far outside is cut.
function trace(context, pixels, count, view) {
  const far = 4000;
  const [wide, high] = [view.width + 2 * far, view.height + 2 * far];
  let isOpen = false;
  if (count === 1) pointAt(context, pixels[0], pixels[1]);
  for (let place = 1; place < count; place++) {
    const [x, y] = [pixels[2 * place - 2], pixels[2 * place - 1]];
    const [u, v] = [pixels[2 * place], pixels[2 * place + 1]];
    if (Math.abs(x) < far && Math.abs(y) < far && Math.abs(u) < far && Math.abs(v) < far) {
      if (!isOpen) context.moveTo(x, y);
      context.lineTo(u, v);
      isOpen = true;
      continue;
    }
    const inside = clipped(x + far, y + far, u + far, v + far, wide, high);
    isOpen = false;
    if (inside) {
      context.moveTo(inside[0] - far, inside[1] - far);
      context.lineTo(inside[2] - far, inside[3] - far);
    }
  }
}

function pointAt(context, x, y) {
  context.moveTo(x, y);
  context.lineTo(x + 0.01, y);
}

// The pixels of a ring's corners, as x, y, x, y, ..
function pixelsOf(ring, view) {
  const pixels = new Float64Array(ring.length);
  for (let place = 0; place < ring.length; place += 2) {
    const [right, down] = view.pixelOf(ring[place], ring[place + 1]);
    pixels[place] = right;
    pixels[place + 1] = down;
  }
  return pixels;
}

// The corners of a ring's part near the view, as pairs: each side cuts what the one before it left.
function cutRing(pixels, view) {
  let corners = [];
  for (let place = 0; place < pixels.length; place += 2) corners.push([pixels[place], pixels[place + 1]]);
  const sides = [[0, -50, 1], [0, view.width + 50, -1], [1, -50, 1], [1, view.height + 50, -1]];
  for (const [axis, edge, sign] of sides) {
    const depth = (corner) => (corner[axis] - edge) * sign;
    const kept = [];
    corners.forEach((corner, place) => {
      const before = corners[(place || corners.length) - 1];
      const [one, two] = [depth(before), depth(corner)];
      if (one < 0 !== two < 0) {
        const part = one / (one - two);
        kept.push([0, 1].map((it) => before[it] + (corner[it] - before[it]) * part));
      }
      if (two >= 0) kept.push(corner);
    });
    corners = kept;
  }
  return corners;
}

function polygon(context, corners) {
  corners.forEach(([right, down], place) => {
    if (place) context.lineTo(right, down);
    else context.moveTo(right, down);
  });
  context.closePath();
}

function isNear(view, right, down) {
  return right > -20 && right < view.width + 20 && down > -20 && down < view.height + 20;
}

// A zone with the middle of the box of its greatest ring.
function zonePath(zone) {
  const boxes = zone.rings.map((ring) => {
    const [left, right] = ends(ring.filter((_, place) => place % 2 === 0));
    const [low, high] = ends(ring.filter((_, place) => place % 2));
    return [left, low, right, high];
  });
  const sizeOf = (box) => (box[2] - box[0]) * (box[3] - box[1]);
  const greatest = boxes.reduce((one, two) => (sizeOf(two) > sizeOf(one) ? two : one));
  const middle = [(greatest[0] + greatest[2]) / 2, (greatest[1] + greatest[3]) / 2];
  const box = [0, 1, 2, 3].map((side) => {
    const values = boxes.map((it) => it[side]);
    return side < 2 ? Math.min(...values) : Math.max(...values);
  });
  return { ...zone, middle, box };
}

// The red, green and blue of #rrggbb.
function rgb(colour) {
  return [1, 3, 5].map((place) => parseInt(colour.slice(place, place + 2), 16));
}
