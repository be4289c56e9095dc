// The panel: what is shown, features, crossings, and the details of what was clicked.

function element(tag, words = "", kind = "") {
  const made = document.createElement(tag);
  if (words) made.textContent = words;
  if (kind) made.className = kind;
  return made;
}

function button(words, action, kind = "") {
  const made = element("button", words, kind);
  made.type = "button";
  made.addEventListener("click", action);
  return made;
}

function dot(colour) {
  const made = element("span", "", "dot");
  made.style.background = colour;
  return made;
}

const CROSS = '<svg viewBox="0 0 24 24" aria-hidden="true"><path d="M6 6l12 12M18 6L6 18"/></svg>';
// How many rows a list has at most.
const ROWS = 200;
const CHIPS = 24;

class Panel {
  constructor(page) {
    this.page = page;
    for (const name of ["details", "layers", "found", "crossings", "find"]) {
      this[name] = document.getElementById(name);
    }
    this.found.className = this.crossings.className = "list";
    this.find.addEventListener("input", () => this.search());
    this.find.addEventListener("keydown", (event) => {
      if (event.key === "Enter") this.found.querySelector("button")?.click();
    });
    this.list();
    this.search();
  }

  // What is shown

  list() {
    const { page } = this;
    const { tracks, head, shows } = page;
    const count = `${several(tracks.legs, "leg")} of ${several(tracks.features, "feature")}`;
    const rows = [this.row(`Tracks: ${count}`, "leg", shows.tracks, (is) => (shows.tracks = is))];
    const areas = head.zones.length + head.rectangles.length;
    if (areas) rows.push(this.areasRow());
    head.layers.forEach((layer) => rows.push(this.layerRow(layer)));
    if (head.layers.some((layer) => layer.rings.length)) {
      rows.push(this.row("Rings at crossings", "ring", shows.rings, (is) => (shows.rings = is)));
    }
    rows.push(this.row("Names", "name", shows.names, (is) => (shows.names = is)));
    this.layers.replaceChildren(...rows);
    this.listCrossings();
  }

  row(words, key, isOn, set, box, note) {
    const line = element("li", "", "row");
    const label = element("label");
    const input = element("input");
    input.type = "checkbox";
    input.checked = isOn;
    input.addEventListener("change", () => {
      set(input.checked);
      this.page.repaint();
    });
    const said = element("span", words, "words");
    if (note) said.append(element("small", note));
    label.append(input, ...(key ? [this.key(key)] : []), said);
    line.append(label);
    if (box) {
      const go = button("view", () => this.page.fly(box()), "go");
      go.setAttribute("aria-label", `View ${words}`);
      line.append(go);
    }
    return line;
  }

  // A small picture of how something is drawn.
  key(kind) {
    const shapes = {
      leg: '<path d="M1 6h18" stroke="var(--leg)" stroke-width="2"/>',
      area: '<rect x="1" y="1" width="18" height="10" fill="var(--zone)" fill-opacity=".15" stroke="var(--zone)"/>',
      rectangle: '<rect x="1" y="1" width="18" height="10" fill="var(--rectangle)" fill-opacity=".15" stroke="var(--rectangle)"/>',
      ring: '<circle cx="10" cy="6" r="4.5" stroke="var(--ink)"/>',
      name: '<path d="M6 2h8M10 2v9" stroke="var(--ink)" stroke-width="1.6"/>',
      hit: [0, 1, 2]
        .map((it) => `<path d="M${1 + 7 * it} 6h4" stroke="${this.page.painter.palette[it]}" stroke-width="3.5"/>`)
        .join(""),
    };
    const made = element("span", "", "key");
    made.innerHTML = `<svg viewBox="0 0 20 12" style="width:20px;height:12px" aria-hidden="true">${shapes[kind]}</svg>`;
    return made;
  }

  areasRow() {
    const { head, shows, painter } = this.page;
    const words = [];
    if (head.rectangles.length) words.push(...head.rectangles.map((it) => it.name));
    if (head.zones.length) words.push(several(head.zones.length, "zone"));
    const key = head.zones.length ? "area" : "rectangle";
    const boxes = [...painter.shapes.zones.map((it) => it.box), ...head.rectangles.map(boxOfSides)];
    const text = words.length > 4 ? several(words.length, "area") : words.join(", ");
    return this.row(text, key, shows.areas, (is) => (shows.areas = is), () => boxAround(boxes));
  }

  layerRow(layer) {
    const set = (is) => {
      layer.isOn = is;
      this.list();
    };
    const box = layer.spans[0].length ? () => this.page.boxOfLayer(layer) : null;
    const row = this.row(layer.title, "hit", layer.isOn, set, box, layer.note);
    if (!layer.isOn) return row;
    const group = element("li");
    const chips = element("div", "", "features");
    const features = [...new Set(layer.spans[0])];
    features.slice(0, CHIPS).forEach((feature) => {
      const chip = button("", () => this.page.selectFeature(feature));
      chip.append(dot(this.page.painter.colourOf(feature)), this.page.label(feature));
      chips.append(chip);
    });
    if (features.length > CHIPS) chips.append(element("span", `and ${features.length - CHIPS} more`, "more"));
    group.append(row, chips);
    return group;
  }

  // Lists

  search() {
    const { page } = this;
    const words = this.find.value.trim().toLowerCase();
    const { names, labels } = page.head;
    const isFound = (name, place) => {
      return name.toLowerCase().includes(words) || (labels && labels[place].toLowerCase().includes(words));
    };
    const found = [];
    let count = 0;
    for (let place = 0; place < names.length; place++) {
      if (!isFound(names[place], place)) continue;
      count++;
      if (found.length < (words ? 30 : 8)) found.push(place);
    }
    const rows = found.map((feature) => {
      const row = button("", () => page.selectFeature(feature));
      row.append(element("span", page.label(feature), "what"));
      return inItem(row);
    });
    if (count > found.length) rows.push(element("li", `and ${several(count - found.length, "other")}`, "more"));
    if (!count) rows.push(element("li", "No feature has this in its name.", "more"));
    this.found.replaceChildren(...rows);
  }

  listCrossings() {
    const { page } = this;
    const rings = page.rings();
    document.getElementById("crossings-section").hidden = !rings.length;
    document.getElementById("crossings-count").textContent = rings.length ? `(${rings.length})` : "";
    const days = new Set(rings.map((ring) => ring[5].slice(0, 10)));
    const rows = rings.slice(0, ROWS).map((ring) => {
      const row = button("", () => page.selectRing(ring, true));
      const at = days.size === 1 ? ring[5].slice(11, 23) : ring[5].slice(0, 19).replace("T", " ");
      const words = [page.label(ring[0]), ring[6], ring[7]].filter(Boolean).join(" ");
      row.append(dot(page.painter.colourOf(ring[0])), element("span", words, "what"), element("span", at, "at"));
      return inItem(row);
    });
    if (rings.length > ROWS) rows.push(element("li", `and ${rings.length - ROWS} more`, "more"));
    this.crossings.replaceChildren(...rows);
  }

  // Details

  async show(selected) {
    this.details.hidden = !selected;
    if (!selected) return;
    const { page } = this;
    const title = element("h3");
    title.append(dot(page.painter.colourOf(selected.feature)), page.label(selected.feature));
    const close = button("", () => page.clear(), "close");
    close.innerHTML = CROSS;
    close.setAttribute("aria-label", "Close the details");
    const parts = [close, title, ...this.about(selected)];
    this.details.replaceChildren(...parts);
    document.getElementById("panel").scrollTop = 0;
    if (selected.leg < 0) return;
    const values = await page.valuesOf(selected.leg);
    if (page.selected !== selected) return;
    this.details.insertBefore(this.attributes(values), this.details.querySelector(".steps"));
  }

  about(selected) {
    const { page } = this;
    if (selected.leg < 0) return [this.aboutFeature(selected.feature)];
    const kind = selected.ring ? `Crossing: ${selected.ring[6]} ${selected.ring[7]}` : "Leg";
    const rows = selected.ring ? this.ringRows(selected.ring) : this.hereRows(selected);
    rows.push(...this.legRows(selected.leg));
    for (const ring of page.ringsOn(selected)) {
      if (ring !== selected.ring) rows.push([`${ring[6]} ${ring[7]}`.trim(), this.exactly(ring)]);
    }
    const steps = element("div", "", "steps");
    for (const [words, way] of [["Leg before", -1], ["Next leg", 1]]) {
      const step = button(words, () => page.step(way));
      step.disabled = !page.canStep(way);
      steps.append(step);
    }
    return [element("p", kind.trim(), "kind"), described(rows), steps];
  }

  aboutFeature(feature) {
    const { tracks, base } = this.page;
    const [begin, end] = [tracks.featureStrip[feature], tracks.featureStrip[feature + 1]];
    const [first, last] = [tracks.stripAt[begin], tracks.stripAt[end] - 1];
    const legs = last + 1 - first - (end - begin);
    return described([
      ["legs", legs.toLocaleString("en")],
      ["first seen", instant(base + tracks.times[first])],
      ["last seen", instant(base + tracks.times[last])],
      ["gaps", (end - begin - 1).toLocaleString("en")],
    ]);
  }

  ringRows(ring) {
    const [x, y] = this.page.axisNames();
    return [
      ["moment", this.exactly(ring)],
      [x, `${decimal(ring[2])} (rounded down)`],
      [y, `${decimal(ring[3])} (rounded down)`],
    ];
  }

  // The exact moment of a crossing, and an instant.
  exactly(ring) {
    const made = element("span");
    made.append(element("span", `${ring[4]} ms`, "exact"));
    made.append(element("small", `exactly, after ${instant(this.page.base)}`));
    made.append(element("span", ring[5]));
    const way = ["leaves", "visit ends"].includes(ring[6]) ? "up" : "down";
    made.append(element("small", `rounded ${way} to a microsecond`));
    return made;
  }

  hereRows({ moment, place }) {
    const { base } = this.page;
    const here = element("span", instant(base + moment));
    here.append(element("small", `near the click, rounded; ${this.page.placeWords(place)}`));
    return [["moment", here]];
  }

  legRows(leg) {
    const { tracks, base, details } = this.page;
    const [begin, end] = [tracks.times[leg], tracks.times[leg + 1]];
    const endOf = (moment, place) => {
      const made = element("span");
      made.append(element("span", instant(base + moment), "exact"));
      made.append(element("small", `${decimal(tracks.x[place])}, ${decimal(tracks.y[place])}`));
      return made;
    };
    const rows = [["leg begins", endOf(begin, leg)], ["leg ends", endOf(end, leg + 1)], ["lasts", spanWords(end - begin)]];
    const metres = this.page.metresOf(leg);
    if (metres !== null) rows.push(["length", lengthWords(metres)], ["speed", speedWords(metres, end - begin)]);
    if (details?.z) rows.push(["height", `${decimal(details.z[leg])} to ${decimal(details.z[leg + 1])}`]);
    return rows;
  }

  attributes(values) {
    const { columns } = this.page.head;
    const rows = columns.map(([name], place) => [name, values[place] || "–"]);
    return described(rows);
  }
}

function inItem(child) {
  const item = element("li");
  item.append(child);
  return item;
}

function described(rows) {
  const list = element("dl");
  for (const [name, value] of rows) {
    const said = element("dd");
    said.append(value);
    list.append(element("dt", name), said);
  }
  return list;
}

function lengthWords(metres) {
  return metres < 1000 ? `${metres.toFixed(1)} m` : `${(metres / 1000).toFixed(3)} km`;
}

function speedWords(metres, milliseconds) {
  const speed = (metres / milliseconds) * 1000;
  return `${(speed * 3.6).toFixed(1)} km/h (${((speed * 3600) / 1852).toFixed(1)} kn)`;
}

function boxOfSides({ sides }) {
  return sides.map((it) => it * UNITS);
}

// The least box around boxes; nothing if there is none.
function boxAround(boxes) {
  if (!boxes.length) return null;
  const side = (place) => boxes.map((box) => box[place]);
  const least = (values) => values.reduce((one, two) => Math.min(one, two));
  const most = (values) => values.reduce((one, two) => Math.max(one, two));
  return [least(side(0)), least(side(1)), most(side(2)), most(side(3))];
}
