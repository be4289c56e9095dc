// The time line: a slider over how many features are seen at each moment, and the clock.

const STEPS = [1, 5, 15, 30, 60, 300, 900, 1800, 3600, 10800, 21600, 43200, 86400, 172800, 604800, 2592000, 7776000, 31536000];
const SPEEDS = [1, 2, 5, 10, 30, 60, 120, 300, 600, 1800, 3600, 7200, 21600, 43200, 86400, 259200, 604800, 2592000];
// How many seconds playing all takes at the first speed, about.
const WHOLE = 24;

class Timeline {
  constructor(page) {
    this.page = page;
    this.canvas = document.getElementById("histogram");
    this.slider = document.getElementById("slider");
    this.speed = document.getElementById("speed");
    this.trail = document.getElementById("trail");
    const { first, last } = page.tracks;
    this.span = Math.max(last - first, 1);
    this.choices();
    this.slider.addEventListener("input", () => {
      page.setNow(first + (this.span * this.slider.value) / this.slider.max);
    });
    this.slider.addEventListener("keydown", (event) => this.key(event));
  }

  choices() {
    const { page } = this;
    const wanted = this.span / 1000 / WHOLE;
    const near = SPEEDS.reduce((one, two) => (Math.abs(Math.log(two / wanted)) < Math.abs(Math.log(one / wanted)) ? two : one));
    for (const value of SPEEDS) {
      this.speed.append(new Option(`${spanWords(value * 1000)} / s`, value, value === near, value === near));
    }
    page.speed = near;
    this.speed.addEventListener("change", () => (page.speed = Number(this.speed.value)));
    this.trail.append(new Option("all so far", "all"), new Option("all, always", "always"), new Option("none", "0"));
    for (const seconds of STEPS) {
      const milliseconds = seconds * 1000;
      if (milliseconds < this.span && milliseconds > this.span / 300) {
        this.trail.append(new Option(spanWords(milliseconds), milliseconds));
      }
    }
    this.trail.addEventListener("change", () => {
      page.trail = this.trail.value;
      page.repaint();
    });
  }

  key(event) {
    const ways = { ArrowLeft: -1, ArrowDown: -1, ArrowRight: 1, ArrowUp: 1, PageUp: 10, PageDown: -10 };
    const way = ways[event.key];
    if (!way) return;
    event.preventDefault();
    this.page.stepTime(way);
  }

  // Shows the moment.
  show(now) {
    const { page } = this;
    const text = instant(page.base + now);
    const part = (now - page.tracks.first) / this.span;
    this.slider.value = Math.round(part * this.slider.max);
    this.slider.setAttribute("aria-valuetext", text);
    const clock = document.getElementById("clock");
    clock.textContent = this.span > 600000 ? instant(Math.floor((page.base + now) / 1000) * 1000) : text;
    clock.title = text;
  }

  // How many strips have a moment in each of some parts of the time.
  counts(parts) {
    const { times, strips, stripAt, first } = this.page.tracks;
    const changes = new Int32Array(parts + 2);
    const part = (moment) => Math.min(Math.floor(((moment - first) / this.span) * parts), parts - 1);
    for (let strip = 0; strip < strips; strip++) {
      changes[part(times[stripAt[strip]])]++;
      changes[part(times[stripAt[strip + 1] - 1]) + 1]--;
    }
    for (let place = 1; place < changes.length; place++) changes[place] += changes[place - 1];
    return changes.subarray(0, parts);
  }

  paint() {
    const { canvas } = this;
    const ratio = window.devicePixelRatio || 1;
    const [wide, high] = [canvas.clientWidth, canvas.clientHeight];
    canvas.width = Math.round(wide * ratio);
    canvas.height = Math.round(high * ratio);
    const context = canvas.getContext("2d");
    context.setTransform(ratio, 0, 0, ratio, 0, 0);
    const { colours } = this.page.painter;
    const parts = Math.max(Math.floor((wide - 10) / 3), 1);
    if (this.kept?.length !== parts) this.kept = this.counts(parts);
    const most = ends(this.kept)[1] || 1;
    context.fillStyle = colours.leg;
    context.globalAlpha = 0.55;
    this.kept.forEach((count, place) => {
      const tall = count ? Math.max((count / most) * 32, 1.5) : 0;
      context.fillRect(5 + place * 3, 34 - tall, 2, tall);
    });
    context.globalAlpha = 1;
    context.fillStyle = colours.soft;
    context.fillRect(5, 35, wide - 10, 1);
    this.marks(context, wide - 10, colours);
  }

  // The round moments below the line.
  marks(context, wide, colours) {
    const { base, tracks } = this.page;
    const step = (STEPS.find((it) => (it * 1000 * wide) / this.span >= 84) || STEPS.at(-1)) * 1000;
    const begin = base + tracks.first;
    context.font = "11px system-ui, sans-serif";
    context.fillStyle = colours.muted;
    context.textAlign = "center";
    let end = -Infinity;
    for (let moment = Math.ceil(begin / step) * step; moment <= begin + this.span; moment += step) {
      const right = 5 + ((moment - begin) / this.span) * wide;
      const words = markWords(moment, step);
      const half = context.measureText(words).width / 2;
      const middle = Math.min(Math.max(right, half), wide + 10 - half);
      context.fillRect(right, 35, 1, 4);
      if (middle - half < end + 8) continue;
      context.fillText(words, middle, 49);
      end = middle + half;
    }
  }
}

// A round moment in short: the day at midnight, else the clock.
function markWords(moment, step) {
  const text = new Date(moment).toISOString();
  if (step >= 86400000 || moment % 86400000 === 0) return text.slice(0, 10);
  return step < 60000 ? text.slice(11, 19) : text.slice(11, 16);
}
