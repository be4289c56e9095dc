// The tracks: positions in strips, levels of detail, and what lies near a place.

class Tracks {
  constructor(head, columns) {
    this.head = head;
    this.x = columns.x;
    this.y = columns.y;
    this.times = columns.times;
    this.featureStrip = sums(columns.features);
    this.stripAt = sums(columns.strips);
    this.features = columns.features.length;
    this.strips = columns.strips.length;
    this.legs = this.x.length - this.strips;
    this.measure();
    this.levels = new Map();
    const kept = new Uint32Array(this.x.length);
    for (let place = 0; place < kept.length; place++) kept[place] = place;
    this.whole = { kept, at: this.stripAt };
  }

  // The box and the period of each strip and of all.
  measure() {
    const strips = this.strips;
    this.stripFeature = new Uint32Array(strips);
    this.left = new Float64Array(strips).fill(Infinity);
    this.right = new Float64Array(strips).fill(-Infinity);
    this.low = new Float64Array(strips).fill(Infinity);
    this.high = new Float64Array(strips).fill(-Infinity);
    for (let feature = 0; feature < this.features; feature++) {
      this.stripFeature.fill(feature, this.featureStrip[feature], this.featureStrip[feature + 1]);
    }
    this.first = Infinity;
    this.last = -Infinity;
    for (let strip = 0; strip < strips; strip++) this.measureStrip(strip);
  }

  measureStrip(strip) {
    const { x, y, stripAt } = this;
    let [left, right, low, high] = [Infinity, -Infinity, Infinity, -Infinity];
    for (let place = stripAt[strip]; place < stripAt[strip + 1]; place++) {
      left = Math.min(left, x[place]);
      right = Math.max(right, x[place]);
      low = Math.min(low, y[place]);
      high = Math.max(high, y[place]);
    }
    this.left[strip] = left;
    this.right[strip] = right;
    this.low[strip] = low;
    this.high[strip] = high;
    this.first = Math.min(this.first, this.times[stripAt[strip]]);
    this.last = Math.max(this.last, this.times[stripAt[strip + 1] - 1]);
  }

  // The box of some strips, as left, low, right, high.
  boxOf(begin, end) {
    const box = [Infinity, Infinity, -Infinity, -Infinity];
    for (let strip = begin; strip < end; strip++) {
      box[0] = Math.min(box[0], this.left[strip]);
      box[1] = Math.min(box[1], this.low[strip]);
      box[2] = Math.max(box[2], this.right[strip]);
      box[3] = Math.max(box[3], this.high[strip]);
    }
    return box;
  }

  boxOfFeature(feature) {
    return this.boxOf(this.featureStrip[feature], this.featureStrip[feature + 1]);
  }

  // The box of most positions: those that lie far off all others do not count.
  bulk() {
    const [left, right] = bulkOf(this.x);
    const [low, high] = bulkOf(this.y);
    return [left, low, right, high];
  }

  // The positions that are seen apart if a pixel is so many units wide and high: no part of a track is
  // further than a pixel from the line through these.
  level(wide, high) {
    const octave = Math.floor(Math.log2(high));
    const scale = 2 ** octave / high;
    if (!this.levels.has(octave)) {
      if (this.levels.size > 7) this.levels.delete(this.levels.keys().next().value);
      this.levels.set(octave, this.thinned(wide * scale, high * scale));
    }
    return this.levels.get(octave);
  }

  thinned(wide, high) {
    const { x, y, stripAt, strips } = this;
    const kept = new Uint32Array(x.length);
    const at = new Uint32Array(strips + 1);
    let count = 0;
    for (let strip = 0; strip < strips; strip++) {
      let before = stripAt[strip];
      const last = stripAt[strip + 1] - 1;
      at[strip] = count;
      kept[count++] = before;
      for (let place = before + 1; place < last; place++) {
        if (Math.abs(x[place] - x[before]) >= wide || Math.abs(y[place] - y[before]) >= high) {
          kept[count++] = place;
          before = place;
        }
      }
      kept[count++] = last;
    }
    at[strips] = count;
    return count > 0.8 * x.length ? this.whole : { kept: kept.slice(0, count), at };
  }

  // The last of kept positions, from one number to another, whose time is not after a moment.
  lastBefore(kept, begin, end, moment) {
    let [low, high] = [begin, end];
    while (low < high) {
      const middle = (low + high + 1) >> 1;
      if (this.times[kept[middle]] <= moment) low = middle;
      else high = middle - 1;
    }
    return low;
  }

  // The strip of a feature that has a moment, the last one if there are two; -1 if there is none.
  stripAtMoment(feature, moment) {
    let low = this.featureStrip[feature];
    let high = this.featureStrip[feature + 1] - 1;
    while (low < high) {
      const middle = (low + high + 1) >> 1;
      if (this.times[this.stripAt[middle]] <= moment) low = middle;
      else high = middle - 1;
    }
    const isThere = moment >= this.times[this.stripAt[low]] && moment <= this.times[this.stripAt[low + 1] - 1];
    return isThere ? low : -1;
  }

  // The first strip of a feature that ends at a moment or later.
  stripFrom(feature, moment) {
    let low = this.featureStrip[feature];
    let high = this.featureStrip[feature + 1];
    while (low < high) {
      const middle = (low + high) >> 1;
      if (this.times[this.stripAt[middle + 1] - 1] < moment) low = middle + 1;
      else high = middle;
    }
    return low;
  }

  // The position from which the leg of a strip begins that has a moment.
  legAtMoment(strip, moment) {
    const [begin, end] = [this.stripAt[strip], this.stripAt[strip + 1] - 2];
    return this.lastBefore(this.whole.kept, begin, end, moment);
  }

  // Where a leg is at a moment.
  placeOn(leg, moment) {
    const [begin, end] = [this.times[leg], this.times[leg + 1]];
    const part = Math.min(Math.max((moment - begin) / (end - begin), 0), 1);
    return [
      this.x[leg] + (this.x[leg + 1] - this.x[leg]) * part,
      this.y[leg] + (this.y[leg + 1] - this.y[leg]) * part,
    ];
  }

  stripOf(position) {
    let [low, high] = [0, this.strips - 1];
    while (low < high) {
      const middle = (low + high + 1) >> 1;
      if (this.stripAt[middle] <= position) low = middle;
      else high = middle - 1;
    }
    return low;
  }

  // The number of the leg from a position, among all legs.
  legNumber(position) {
    return position - this.stripOf(position);
  }

  // The leg that is nearest to a place in a time window, no further than a reach in pixels.
  nearest(view, pixel, reach, window, bonus) {
    const best = { distance: reach, leg: -1, moment: 0 };
    const [x, y] = view.placeOf(pixel);
    const box = [x - reach / view.across, y - reach / view.up, x + reach / view.across, y + reach / view.up];
    for (let strip = 0; strip < this.strips; strip++) {
      if (this.right[strip] < box[0] || this.left[strip] > box[2]) continue;
      if (this.high[strip] < box[1] || this.low[strip] > box[3]) continue;
      this.nearestIn(strip, view, pixel, box, window, bonus(this.stripFeature[strip]), best);
    }
    return best;
  }

  nearestIn(strip, view, pixel, box, [from, to], bonus, best) {
    const { x, y, times } = this;
    for (let leg = this.stripAt[strip]; leg < this.stripAt[strip + 1] - 1; leg++) {
      if (times[leg] > to || times[leg + 1] < from) continue;
      if (Math.min(x[leg], x[leg + 1]) > box[2] || Math.max(x[leg], x[leg + 1]) < box[0]) continue;
      if (Math.min(y[leg], y[leg + 1]) > box[3] || Math.max(y[leg], y[leg + 1]) < box[1]) continue;
      const found = nearestOn(view.pixelOf(x[leg], y[leg]), view.pixelOf(x[leg + 1], y[leg + 1]), pixel);
      const moment = times[leg] + (times[leg + 1] - times[leg]) * found.part;
      if (found.distance - bonus < best.distance && moment >= from && moment <= to) {
        Object.assign(best, { distance: found.distance - bonus, leg, moment });
      }
    }
  }
}

function sums(sizes) {
  const found = new Uint32Array(sizes.length + 1);
  for (let place = 0; place < sizes.length; place++) found[place + 1] = found[place] + sizes[place];
  return found;
}

// The part of a line at which it is nearest to a pixel, and how near.
function nearestOn(one, two, pixel) {
  const [across, down] = [two[0] - one[0], two[1] - one[1]];
  const square = across * across + down * down;
  const along = (pixel[0] - one[0]) * across + (pixel[1] - one[1]) * down;
  const part = square ? Math.min(Math.max(along / square, 0), 1) : 0;
  const distance = Math.hypot(one[0] + across * part - pixel[0], one[1] + down * part - pixel[1]);
  return { part, distance };
}

// The least and the greatest of values, without those that are four times as far off the middle as
// nine of ten are.
function bulkOf(values) {
  const step = Math.ceil(values.length / 20000);
  const order = new Float64Array(Math.ceil(values.length / step));
  for (let place = 0; place < order.length; place++) order[place] = values[place * step];
  order.sort();
  const middle = order[order.length >> 1];
  const far = order.map((value) => Math.abs(value - middle)).sort();
  const reach = 4 * far[Math.floor(0.9 * (far.length - 1))];
  if (order.length < 20 || !reach) return ends(values);
  const near = order.filter((value) => Math.abs(value - middle) <= reach);
  return [near[0], near[near.length - 1]];
}

function ends(values) {
  let [least, most] = [Infinity, -Infinity];
  for (const value of values) {
    least = Math.min(least, value);
    most = Math.max(most, value);
  }
  return [least, most];
}
