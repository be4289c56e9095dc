// The page: what is seen and when, and what keys, pointers and buttons do.

const SYMBOLS = {
  play: '<svg viewBox="0 0 24 24" aria-hidden="true"><path d="M7 4l13 8-13 8z"/></svg>',
  pause: '<svg viewBox="0 0 24 24" aria-hidden="true"><path d="M6 4h4v16H6zM14 4h4v16h-4z"/></svg>',
  light: '<svg viewBox="0 0 24 24" aria-hidden="true"><circle cx="12" cy="12" r="4"/><path d="M12 3v1M12 20v1M3 12h1M20 12h1M5.6 5.6l.8.8M17.6 17.6l.8.8M5.6 18.4l.8-.8M17.6 6.4l.8-.8"/></svg>',
  dark: '<svg viewBox="0 0 24 24" aria-hidden="true"><path d="M19 14.5A7.5 7.5 0 0 1 9.5 5a7.5 7.5 0 1 0 9.5 9.5z"/></svg>',
};
// A paint that takes longer than this, in milliseconds, is drafted while the view moves.
const SLOW = 24;
// How near a click is, in pixels.
const REACH = 8;
const byId = (name) => document.getElementById(name);

class Page {
  constructor(head, tracks) {
    Object.assign(this, { head, tracks, base: head.base });
    this.shows = { tracks: true, areas: true, rings: true, names: true };
    this.isPlaying = false;
    this.now = tracks.last;
    this.trail = "all";
    this.selected = null;
    this.paints = 0;
    this.slow = 0;
    this.number();
    this.painter = new Painter(byId("map"), tracks, head);
    this.painter.numbers = this.numbers;
    const [, low, , high] = tracks.bulk();
    this.view = new View(head.inDegrees, (low + high) / 2);
    this.theme(matchMedia("(prefers-color-scheme: dark)").matches ? "dark" : "light");
    this.painter.resize(this.view);
    this.panel = new Panel(this);
    this.timeline = new Timeline(this);
    this.begin();
  }

  // Gives each feature of an answer a colour, in the order in which they come.
  number() {
    this.numbers = new Map();
    for (const layer of this.head.layers) {
      for (const feature of layer.spans[0]) {
        if (!this.numbers.has(feature)) this.numbers.set(feature, this.numbers.size);
      }
      layer.isOn = false;
    }
    const { layers } = this.head;
    const first = layers.find((layer) => layer.spans[0].length) || layers[0];
    for (const layer of layers) layer.isOn = layer === first || layer.kind === "moments";
  }

  begin() {
    const { tracks, head, base } = this;
    const period = `${instant(base + tracks.first)} to ${instant(base + tracks.last)}`;
    const count = `${several(tracks.legs, "leg")} of ${several(tracks.features, "feature")}`;
    byId("about").textContent = `${count}, ${period}; ${head.crsWords}`;
    byId("about").title = byId("about").textContent;
    this.panel.list();
    this.fitStart();
    this.setNow(tracks.last);
    this.listen();
    this.pointers = new Pointers(this);
    this.symbol();
    if (innerWidth < 760) this.fold();
  }

  listen() {
    const { view } = this;
    const middle = () => [view.width / 2, view.height / 2];
    const clicks = {
      "zoom-in": () => this.zoom(1.6, middle()),
      "zoom-out": () => this.zoom(1 / 1.6, middle()),
      "fit-all": () => this.fly(this.tracks.boxOf(0, this.tracks.strips)),
      "fit-start": () => this.fitStart(),
      theme: () => this.theme(document.documentElement.dataset.theme === "dark" ? "light" : "dark", true),
      fold: () => this.fold(),
      play: () => this.play(!this.isPlaying),
    };
    for (const [name, action] of Object.entries(clicks)) byId(name).addEventListener("click", action);
    new ResizeObserver(() => this.resized()).observe(byId("stage"));
    matchMedia("(prefers-color-scheme: dark)").addEventListener("change", (event) => {
      if (!this.isChosen) this.theme(event.matches ? "dark" : "light");
    });
    document.addEventListener("keydown", (event) => this.key(event));
    byId("map").addEventListener("focus", () => this.repaint());
    byId("map").addEventListener("blur", () => this.repaint());
  }

  // What is seen

  fold() {
    const isFolded = byId("panel").toggleAttribute("data-folded");
    byId("fold").setAttribute("aria-expanded", String(!isFolded));
  }

  theme(name, isChosen = false) {
    document.documentElement.dataset.theme = name;
    this.isChosen = isChosen || this.isChosen;
    byId("theme").innerHTML = SYMBOLS[name === "dark" ? "light" : "dark"];
    byId("theme").setAttribute("aria-label", name === "dark" ? "Light colours" : "Dark colours");
    this.painter.restyle(this.head.palettes);
    this.timeline?.paint();
    this.panel?.list();
    this.panel?.show(this.selected);
    this.repaint();
  }

  resized() {
    this.painter.resize(this.view);
    this.timeline.paint();
    this.paint();
  }

  // What was asked about, with room around it; all where that is little more.
  fitStart() {
    const every = this.tracks.bulk();
    const near = boxAround([...this.askedBoxes()]);
    const size = (box) => Math.max(box[2] - box[0], box[3] - box[1]);
    this.fly(!near || size(every) <= 1.5 * size(near) ? every : near);
  }

  *askedBoxes() {
    const { head, painter } = this;
    for (const zone of painter.shapes.zones) yield widened(zone.box, 0.3);
    for (const it of head.rectangles) yield widened(boxOfSides(it), 0.6);
    for (const layer of head.layers) {
      if (!layer.isOn) continue;
      if (layer.box && layer.kind === "features") yield widened(layer.box.map((it) => it * UNITS), 1);
      const box = layer.kind === "legs" ? this.boxOfLayer(layer) : this.boxOfRings(layer);
      if (box) yield box;
    }
  }

  boxOfRings(layer) {
    return boxAround(layer.rings.map(([, , x, y]) => [x, y, x, y]));
  }

  // The box of what a layer shows: of whole tracks, or of where spans begin and end.
  boxOfLayer(layer) {
    const [features, firsts, lasts] = layer.spans;
    if (layer.kind === "features") return boxAround(features.map((it) => this.tracks.boxOfFeature(it)));
    const boxes = [];
    features.forEach((feature, place) => {
      for (const moment of [firsts[place], lasts[place]]) {
        const found = this.placeAt(feature, moment);
        if (found) boxes.push([...found, ...found]);
      }
    });
    return boxAround(boxes);
  }

  // Where a feature is at a moment; nothing if it was not seen then.
  placeAt(feature, moment) {
    const strip = this.tracks.stripAtMoment(feature, moment);
    return strip < 0 ? null : this.tracks.placeOn(this.tracks.legAtMoment(strip, moment), moment);
  }

  fly(box) {
    this.view.fit(box);
    this.moved();
  }

  zoom(factor, pixel) {
    this.view.zoom(factor, pixel);
    this.moved();
  }

  pan(right, down) {
    this.view.pan(right, down);
    this.moved();
  }

  // The view has changed: a slow picture is drafted, and made well when nothing moves.
  moved() {
    this.draft();
    this.repaint();
  }

  draft() {
    this.isDraft = this.slow > SLOW;
    clearTimeout(this.calm);
    this.calm = setTimeout(() => {
      if (this.isDraft) {
        this.isDraft = false;
        this.repaint();
      }
    }, 180);
  }

  repaint() {
    if (this.asked) return;
    this.asked = requestAnimationFrame(() => {
      this.asked = 0;
      this.paint();
    });
  }

  paint() {
    const begun = performance.now();
    this.painter.paint(this.scene());
    const took = performance.now() - begun;
    if (!this.isDraft) this.slow = took;
    this.paints++;
    this.took = took;
    this.scale();
    this.read();
  }

  scene() {
    const layers = this.head.layers.filter((layer) => layer.isOn);
    const window = this.window();
    const own = new Set(layers.length ? layers.flatMap((layer) => layer.spans[0]) : []);
    return {
      view: this.view,
      shows: this.shows,
      layers,
      window,
      numbers: this.numbers,
      isDraft: this.isDraft,
      isMoving: this.now < this.tracks.last,
      now: this.now,
      selected: this.selected,
      isColoured: (feature) => own.has(feature) || this.selected?.feature === feature,
      label: (feature) => this.label(feature),
      named: () => this.named(layers, window),
      hasCross: document.activeElement === byId("map") && byId("map").matches(":focus-visible"),
    };
  }

  // The moments whose tracks are shown.
  window() {
    if (this.trail === "always") return [-Infinity, Infinity];
    return this.trail === "all" ? [-Infinity, this.now] : [this.now - Number(this.trail), this.now];
  }

  // The features that have names on the map, with the places of these.
  *named(layers, [from, to]) {
    const lasts = new Map();
    for (const { spans } of layers) {
      for (let place = 0; place < spans[0].length && lasts.size <= CHIPS; place++) {
        if (spans[1][place] <= to && spans[2][place] >= from) lasts.set(spans[0][place], spans[2][place]);
      }
    }
    if (lasts.size > CHIPS) lasts.clear();
    if (this.selected) lasts.set(this.selected.feature, this.selected.moment ?? to);
    for (const [feature, last] of lasts) {
      const place = this.namePlace(feature, Math.min(last, to));
      if (place) yield [feature, place];
    }
  }

  // Where a feature's name stands: where it is now, else where it was seen last in view.
  namePlace(feature, last) {
    const now = this.now < this.tracks.last ? this.placeAt(feature, this.now) : null;
    if (now) return now;
    const [left, low, right, high] = this.view.box();
    const isIn = ([x, y]) => x >= left && x <= right && y >= low && y <= high;
    const then = this.placeAt(feature, last);
    if (then && isIn(then)) return then;
    const { x, y, times, stripAt, featureStrip } = this.tracks;
    for (let place = stripAt[featureStrip[feature + 1]] - 1; place >= stripAt[featureStrip[feature]]; place--) {
      if (times[place] <= last && isIn([x[place], y[place]])) return [x[place], y[place]];
    }
    return null;
  }

  label(feature) {
    return this.head.labels?.[feature] || this.head.names[feature];
  }

  // Time

  setNow(moment) {
    const { first, last } = this.tracks;
    this.now = Math.min(Math.max(moment, first), last);
    this.timeline.show(this.now);
    // Tracks that grow are cheap; a trail is painted anew.
    if (this.isPlaying && this.trail !== "all") this.draft();
    this.repaint();
  }

  stepTime(way) {
    this.setNow(this.now + (way * this.timeline.span) / 200);
  }

  play(isPlaying) {
    this.isPlaying = isPlaying;
    if (isPlaying && this.now >= this.tracks.last) this.setNow(this.tracks.first);
    this.symbol();
    let before = performance.now();
    const frame = (time) => {
      if (!this.isPlaying) return;
      this.setNow(this.now + Math.max(time - before, 0) * this.speed);
      before = time;
      if (this.now >= this.tracks.last) this.play(false);
      else requestAnimationFrame(frame);
    };
    if (isPlaying) requestAnimationFrame(frame);
  }

  symbol() {
    byId("play").innerHTML = SYMBOLS[this.isPlaying ? "pause" : "play"];
    byId("play").setAttribute("aria-label", this.isPlaying ? "Pause" : "Play");
  }

  // Readouts

  axisNames() {
    return this.head.inDegrees ? ["longitude", "latitude"] : ["x", "y"];
  }

  // A place with as many digits as the view tells apart.
  placeWords(place) {
    const step = Math.max(1 / this.view.up, 1);
    const digits = Math.min(Math.max(Math.ceil(7 - Math.log10(step)), 0), 7);
    const [x, y] = place.map((it) => (it / UNITS).toFixed(digits));
    return this.head.inDegrees ? `longitude ${x}, latitude ${y}` : `x ${x}, y ${y}`;
  }

  read(pixel = this.pointers?.over) {
    const { view } = this;
    byId("readout").textContent = this.placeWords(view.placeOf(pixel || [view.width / 2, view.height / 2]));
  }

  // The scale bar: a round length of at most a fifth of the width.
  scale() {
    const { head, view } = this;
    const degree = (EARTH * Math.PI) / 180;
    const metres = head.inDegrees ? degree : 1;
    const isKnown = head.inDegrees || head.inMetres;
    const own = isKnown ? { metres: 1, miles: 1609.344, nautical: 1852 }[head.units] : 1;
    const pixels = (view.up * UNITS * own) / metres;
    const length = nice(Math.min(view.width / 5, 160) / pixels);
    const word = isKnown ? { metres: "m", miles: "mi", nautical: "nmi" }[head.units] : `in units of ${head.crs}`;
    const isLong = word === "m" && length >= 1000;
    const words = isLong ? `${length / 1000} km` : `${Number(length.toPrecision(6))} ${word}`;
    byId("scale-bar").style.width = `${length * pixels}px`;
    byId("scale-words").textContent = words;
  }

  metresOf(leg) {
    const { x, y } = this.tracks;
    const { inDegrees, inMetres } = this.head;
    if (inMetres) return Math.hypot(x[leg + 1] - x[leg], y[leg + 1] - y[leg]) / UNITS;
    if (!inDegrees) return null;
    const angle = (units) => ((units / UNITS) * Math.PI) / 180;
    const rise = Math.sin(angle(y[leg + 1] - y[leg]) / 2) ** 2;
    const turn = Math.sin(angle(x[leg + 1] - x[leg]) / 2) ** 2;
    const half = rise + Math.cos(angle(y[leg])) * Math.cos(angle(y[leg + 1])) * turn;
    return 2 * EARTH * Math.asin(Math.sqrt(Math.min(half, 1)));
  }

  // What is selected

  // The crossings of the layers that are shown, in the order of time.
  rings() {
    const layers = this.head.layers.filter((layer) => layer.isOn);
    const every = layers.flatMap((layer) => layer.rings);
    return layers.length > 1 ? every.sort((one, two) => one[1] - two[1]) : every;
  }

  ringsOn({ feature, leg }) {
    const [begin, end] = [this.tracks.times[leg], this.tracks.times[leg + 1]];
    return this.rings().filter((ring) => ring[0] === feature && ring[1] >= begin && ring[1] <= end);
  }

  // Tells what is at a pixel: a crossing, else the nearest leg.
  pick(pixel) {
    const ring = this.ringAt(pixel);
    if (ring) return this.selectRing(ring);
    const best = this.legAt(pixel);
    if (best.leg < 0) return this.clear();
    return this.selectLeg(best.leg, best.moment);
  }

  ringAt(pixel) {
    const [from, to] = this.window();
    let best = null;
    let near = REACH;
    for (const ring of this.shows.rings ? this.rings() : []) {
      const [right, down] = this.view.pixelOf(ring[2], ring[3]);
      const distance = Math.hypot(right - pixel[0], down - pixel[1]);
      if (distance < near && ring[1] >= from && ring[1] <= to) [near, best] = [distance, ring];
    }
    return best;
  }

  legAt(pixel) {
    const own = new Set(this.head.layers.filter((it) => it.isOn).flatMap((layer) => layer.spans[0]));
    return this.tracks.nearest(this.view, pixel, REACH, this.window(), (feature) => (own.has(feature) ? 2 : 0));
  }

  select(selected) {
    this.selected = selected;
    this.panel.show(selected);
    this.repaint();
  }

  clear() {
    this.select(null);
  }

  selectLeg(leg, moment) {
    const feature = this.tracks.stripFeature[this.tracks.stripOf(leg)];
    this.select({ feature, leg, moment, place: this.tracks.placeOn(leg, moment) });
  }

  selectRing(ring, isShown = false) {
    const [feature, moment, x, y] = ring;
    const strip = this.tracks.stripAtMoment(feature, moment);
    const leg = strip < 0 ? -1 : this.tracks.legAtMoment(strip, moment);
    const [right, down] = this.view.pixelOf(x, y);
    const { width, height } = this.view;
    if (isShown && (right < 0 || down < 0 || right > width || down > height)) Object.assign(this.view, { x, y });
    if (isShown && this.now < moment) this.setNow(moment);
    this.select({ feature, leg, moment, place: [x, y], ring });
  }

  selectFeature(feature) {
    const box = this.tracks.boxOfFeature(feature);
    if (!this.view.meets(box)) this.fly(widened(box, 0.2));
    this.select({ feature, leg: -1 });
  }

  canStep(way) {
    const { leg, feature } = this.selected;
    const { featureStrip, stripAt } = this.tracks;
    if (way < 0) return leg > stripAt[featureStrip[feature]];
    return leg < stripAt[featureStrip[feature + 1]] - 2;
  }

  // Goes to the feature's next leg or to the one before it, over a gap too.
  step(way) {
    if (!this.canStep(way)) return;
    const { tracks } = this;
    let leg = this.selected.leg + way;
    const strip = tracks.stripOf(leg);
    if (leg === tracks.stripAt[strip + 1] - 1) leg += way;
    const moment = way > 0 ? tracks.times[leg] : tracks.times[leg + 1];
    this.selectLeg(leg, moment);
    if (this.now < moment) this.setNow(moment);
  }

  // The attribute values of a leg; they are read at the first question.
  async valuesOf(leg) {
    this.wanted ??= Promise.all([columnsIn("details", this.head.details), objectIn("values")]);
    const [details, values] = await this.wanted;
    this.details = details;
    return values[details.rows[this.tracks.legNumber(leg)]];
  }

  // Keys

  key(event) {
    if (event.ctrlKey || event.metaKey || event.altKey) return;
    const { target } = event;
    if (event.key === "Escape") return void this.clear();
    const isTyping = target instanceof HTMLInputElement && target.type === "search";
    if (isTyping || target instanceof HTMLSelectElement) return;
    const action = this.keys(event)[event.key];
    const isOnButton = target instanceof HTMLButtonElement || target instanceof HTMLInputElement;
    const isOwn = target === byId("map") || !["ArrowLeft", "ArrowRight", "ArrowUp", "ArrowDown", "Enter", " ", "Home"].includes(event.key);
    if (!action || (isOnButton && !isOwn)) return;
    event.preventDefault();
    action();
  }

  keys(event) {
    const far = event.shiftKey ? 240 : 60;
    const middle = [this.view.width / 2, this.view.height / 2];
    return {
      ArrowLeft: () => this.pan(far, 0),
      ArrowRight: () => this.pan(-far, 0),
      ArrowUp: () => this.pan(0, far),
      ArrowDown: () => this.pan(0, -far),
      "+": () => this.zoom(1.6, middle),
      "=": () => this.zoom(1.6, middle),
      "-": () => this.zoom(1 / 1.6, middle),
      0: () => this.fly(this.tracks.boxOf(0, this.tracks.strips)),
      Home: () => this.fitStart(),
      Enter: () => this.pick(middle),
      " ": () => this.play(!this.isPlaying),
      ",": () => this.stepTime(-1),
      ".": () => this.stepTime(1),
      t: () => byId("theme").click(),
      n: () => this.selected?.leg >= 0 && this.step(1),
      p: () => this.selected?.leg >= 0 && this.step(-1),
    };
  }
}

function widened([left, low, right, high], part) {
  const room = Math.max(right - left, high - low) * part;
  return [left - room, low - room, right + room, high + room];
}

// The pointers on the map: one drags, two pinch, a wheel zooms, a click tells.
class Pointers {
  constructor(page) {
    Object.assign(this, { page, down: new Map(), over: null });
    this.map = byId("map");
    const on = (name, action) => this.map.addEventListener(name, action, { passive: false });
    on("pointerdown", (event) => this.press(event));
    on("pointermove", (event) => this.move(event));
    on("pointerup", (event) => this.release(event));
    on("pointercancel", (event) => this.release(event));
    on("pointerleave", () => this.leave());
    on("wheel", (event) => this.wheel(event));
    on("dblclick", (event) => page.zoom(2, this.pixel(event)));
  }

  pixel(event) {
    const box = this.map.getBoundingClientRect();
    return [event.clientX - box.left, event.clientY - box.top];
  }

  press(event) {
    this.map.setPointerCapture(event.pointerId);
    this.down.set(event.pointerId, this.pixel(event));
    if (this.down.size === 1) this.far = 0;
    else this.far = Infinity;
    this.hint(null);
  }

  move(event) {
    const pixel = this.pixel(event);
    this.over = pixel;
    const before = this.down.get(event.pointerId);
    if (!before) return this.hover(pixel);
    if (this.down.size === 2) this.pinch(event.pointerId, before, pixel);
    else {
      this.far += Math.hypot(pixel[0] - before[0], pixel[1] - before[1]);
      if (this.far > 4) this.map.classList.add("is-dragged");
      if (this.far > 4) this.page.pan(pixel[0] - before[0], pixel[1] - before[1]);
    }
    this.down.set(event.pointerId, pixel);
  }

  // One of two pointers has moved: the map goes and grows with them.
  pinch(own, before, now) {
    const [, other] = [...this.down].find(([name]) => name !== own);
    const distance = (one) => Math.hypot(one[0] - other[0], one[1] - other[1]);
    const middle = (one) => [(one[0] + other[0]) / 2, (one[1] + other[1]) / 2];
    const [from, to] = [middle(before), middle(now)];
    this.page.pan(to[0] - from[0], to[1] - from[1]);
    if (distance(before) > 1) this.page.zoom(distance(now) / distance(before), to);
  }

  release(event) {
    const isClick = this.down.delete(event.pointerId) && this.far <= 4 && event.type === "pointerup";
    this.map.classList.remove("is-dragged");
    if (isClick) this.page.pick(this.pixel(event));
  }

  leave() {
    this.over = null;
    this.hint(null);
    this.page.read();
  }

  wheel(event) {
    event.preventDefault();
    const lines = event.deltaMode === 1 ? 24 : 1;
    const amount = Math.min(Math.max(event.deltaY * lines, -400), 400);
    this.page.zoom(Math.exp(-amount * (event.ctrlKey ? 0.01 : 0.0018)), this.pixel(event));
  }

  // Names what is below the pointer, once a frame.
  hover(pixel) {
    if (this.waiting) return;
    this.waiting = requestAnimationFrame(() => {
      this.waiting = 0;
      this.page.read(pixel);
      if (this.page.isPlaying || this.down.size) return this.hint(null);
      const ring = this.page.ringAt(pixel);
      const best = ring ? null : this.page.legAt(pixel);
      const tracks = this.page.tracks;
      const feature = ring ? ring[0] : best.leg < 0 ? -1 : tracks.stripFeature[tracks.stripOf(best.leg)];
      const moment = ring ? ring[5] : best && instant(this.page.base + best.moment);
      this.hint(feature < 0 ? null : `${this.page.label(feature)}, ${moment}`, pixel);
    });
  }

  hint(words, pixel) {
    const box = byId("hint");
    this.map.classList.toggle("is-over", Boolean(words));
    box.hidden = !words;
    if (!words) return;
    box.textContent = words;
    box.style.left = `${Math.min(pixel[0] + 14, this.page.view.width - 270)}px`;
    box.style.top = `${pixel[1] + 14}px`;
  }
}

async function start() {
  const begun = performance.now();
  if (!window.DecompressionStream) throw new Error("this browser is too old: it has no DecompressionStream");
  const head = await objectIn("head");
  const columns = await columnsIn("positions", head.positions);
  const page = new Page(head, new Tracks(head, columns));
  page.paint();
  page.opened = performance.now();
  page.prepared = page.opened - begun;
  window.mftbPage = page;
}

start().catch((error) => {
  byId("fault").textContent = `The page cannot be shown: ${error.message}`;
  byId("fault").hidden = false;
  throw error;
});
