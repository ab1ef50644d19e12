"use strict";
(() => {
const began = performance.now();
const data = JSON.parse(document.getElementById("figures").textContent);
const run = data.run, FILES = run.files, THIN = "\u202f", MORE = "\u2026", DAY = 86400000;

// ---- elements

function put(node, props, children) {
  for (const [name, value] of Object.entries(props || {})) {
    if (value === false || value === null || value === undefined) continue;
    if (name === "text") node.textContent = value;
    else if (name.startsWith("on")) node.addEventListener(name.slice(2), value);
    else node.setAttribute(name, value === true ? "" : value);
  }
  for (const child of children.flat(3)) if (child !== null && child !== undefined && child !== false) node.append(child);
  return node;
}
const el = (tag, props, ...children) => put(document.createElement(tag), props, children);
const svg = (tag, props, ...children) => put(document.createElementNS("http://www.w3.org/2000/svg", tag), props, children);
const byId = id => document.getElementById(id);

// ---- figures: texts all the way, never numbers that round

const group = digits => digits.replace(/\B(?=(\d{3})+$)/g, THIN);
const count = number => group(String(number));
const plural = (number, one, many) => `${count(number)} ${number === 1 ? one : many || one + "s"}`;

/** A decimal with its point moved to the left, without zeros at the end of its fraction. */
function shift(text, by) {
  let [front, rest = ""] = text.replace("-", "").split(".");
  if (by >= 0) {
    front = front.padStart(by + 1, "0");
    rest = front.slice(front.length - by) + rest;
    front = front.slice(0, front.length - by);
  } else {
    rest = rest.padEnd(-by, "0");
    front = (front + rest.slice(0, -by)).replace(/^0+(?=\d)/, "");
    rest = rest.slice(-by);
  }
  rest = rest.replace(/0+$/, "");
  return (text.startsWith("-") ? "-" : "") + front + (rest && "." + rest);
}
/** A decimal to be read: its front in groups, at most six places (more where they are all 0), cut and not rounded. */
function cut(text, places = 6) {
  const [front, rest = ""] = text.split("."), lead = front === "0" ? rest.search(/[1-9]/) : 0;
  const most = Math.max(places, lead + 3);
  return group(front) + (rest && "." + rest.slice(0, most)) + (rest.length > most ? MORE : "");
}
const short = text => text.length > 20 ? text.slice(0, text.startsWith("cosmos") ? 17 : 8) + MORE + text.slice(-6) : text;
const coin = denom => run.exponents[denom] || [0, denom];
const unitOf = denom => short(coin(denom)[1]);
const inCoins = (text, denom) => shift(text, coin(denom)[0]);
const percent = text => cut(shift(text, -2)) + "%";
/** The units of 10^-places of a text as a decimal, as the program prints it. */
function decimal(units, places) {
  if (!places) return units;
  const minus = units.startsWith("-"), digits = units.replace("-", "").padStart(places + 1, "0");
  return (minus ? "-" : "") + digits.slice(0, -places) + "." + digits.slice(-places);
}
const whole = text => BigInt(text.replace(".", "") || 0);
/** A part of a whole in percent, cut to `places`. */
function share(part, of, places = 2) {
  if (of <= 0n) return "";
  return cut(shift(decimal(String(part * 10n ** 14n / of), 14), -2), places).replace(MORE, "") + "%";
}

// ---- moments

const moments = new Map();
{
  const seconds = data.times.s.split(","), rests = data.times.f ? data.times.f.split(",") : null;
  let height = 0, second = 0;
  data.times.h.split(",").forEach((text, place) => {
    if (!text) return;
    height += parseInt(text, 36);
    second += parseInt(seconds[place], 36);
    moments.set(height, [second, rests ? rests[place] : "0"]);
  });
}
const millis = height => { const m = moments.get(height); return m ? m[0] * 1000 + Number(m[1]) / 1e6 : NaN; };
/** The moment of a height as it is printed. */
function momentText(height) {
  const moment = moments.get(height);
  if (!moment) return "";
  const rest = moment[1].padStart(9, "0").replace(/0+$/, "");
  return new Date(moment[0] * 1000).toISOString().slice(0, 19) + (rest && "." + rest) + "Z";
}
const readable = text => text.replace("T", " ").replace("Z", " UTC");

// ---- where a figure stands

const fileOf = place => { const at = Math.floor(place / FILES); return at ? run.inputs[at - 1] : run.name; };
const lineOf = place => place % FILES;
const nameOf = file => file === "-" ? "standard input" : file;

/** Shows where a figure stands: `fact` has value, denom, place, height, what, note, and to (of a span of lines). */
function showFact(fact) {
  const box = byId("fact"), file = fileOf(fact.place), line = lineOf(fact.place), first = fact.from ? lineOf(fact.from) : line;
  const lines = first === line ? `line ${count(line)}` : `lines ${count(first)} to ${count(line)}`;
  const converted = fact.denom && run.exponents[fact.denom] && fact.value ? `${inCoins(fact.value, fact.denom)} ${coin(fact.denom)[1]}` : "";
  const close = () => { box.hidden = true; if (fact.back && fact.back.isConnected) fact.back.focus(); };
  box.replaceChildren(el("div", {},
    el("p", {}, el("strong", {class: "full", text: fact.shown || `${fact.value}${fact.denom ? " " + fact.denom : ""}`}), " ",
      converted && el("span", {class: "soft full", text: `= ${converted}`})),
    el("button", {class: "push", onclick: close, "aria-label": "Close", text: "Close"}),
    el("p", {class: "soft", text: [fact.what, fact.note].filter(Boolean).join("; ")}),
    el("div", {class: "where"},
      el("span", {}, "height ", el("b", {"data-is": "height", text: count(fact.height)})),
      momentText(fact.height) && el("span", {text: readable(momentText(fact.height))}),
      el("span", {}, el("b", {"data-is": "line", text: lines}), ` of ${nameOf(file)}`),
      el("code", {text: `sed -n ${first}${first === line ? "" : "," + line}p ${file === "-" ? "run.out" : file}`}))));
  box.hidden = false;
  Object.assign(box.dataset, {height: fact.height, line, file, value: fact.value || "", first});
  box.onkeydown = event => { if (event.key === "Escape") close(); };
  byId("told").textContent = `${fact.shown || fact.value}, height ${fact.height}, ${lines}`;
}

/** A figure as a button: its text to be read, all of it where it is pointed at, its place where it is clicked. */
const bare = denom => value => cut(inCoins(value, denom));
function figure(fig, what, how) {
  if (!fig) return el("span", {class: "soft", text: "\u2013"});
  const [text, denom, place, height, note] = fig, to = how || (value => cut(inCoins(value, denom)));
  const all = denom ? `${inCoins(text, denom)} ${coin(denom)[1]}` : text;
  const button = el("button", {class: "fig", type: "button", title: `${all}; click for its line`, "data-value": text,
    "data-denom": denom || null, "data-place": place, "data-height": height, "data-what": what, "data-note": note || null, text: to(text),
    onclick: () => showFact({value: text, denom, place, height, what, note, back: button})});
  return el("span", {}, button, denom && !how ? el("span", {class: "unit", text: " " + unitOf(denom)}) : null);
}
const figures = (list, what) => list && list.length
  ? el("div", {class: "stack"}, list.map(fig => el("div", {}, figure(fig, what)))) : el("span", {class: "soft", text: "none"});
const own = list => (list || []).find(fig => fig[1] === run.denom);

// ---- series

/** The points of a series: heights, values as texts, places, and what stands beside a value. */
function points(text, places) {
  const made = {h: [], v: [], p: [], more: [], y: []};
  if (!text) return made;
  let height = 0, place = 0;
  for (const part of text.split(";")) {
    const [h, value, p, more] = part.split(",");
    height += parseInt(h, 36);
    place += parseInt(p, 36);
    made.h.push(height); made.v.push(decimal(value, places)); made.p.push(place); made.more.push(more);
  }
  return made;
}
/** A curve of a chart: where its points lie, how each is shown, and where it stands. */
function curve(name, colour, text, {places = 0, denom = "", style = "step", what = name, step = 1, show, height, hint = ""} = {}) {
  const made = points(text, places), by = 10 ** coin(denom)[0];
  made.y = made.v.map(value => Number(value) / by);
  const showing = show || (value => `${inCoins(value, denom)} ${denom ? coin(denom)[1] : hint}`.trim());
  return {name, colour, style, step, denom, h: made.h, y: made.y, v: made.v, p: made.p, more: made.more,
    x: made.h.map(millis), shown: at => showing(made.v[at]),
    fact: at => ({value: made.v[at], denom, place: made.p[at], height: made.h[at], what})};
}

// ---- axes

function ticksOf(low, high, most, isWhole) {
  if (isWhole === "rank") {
    const last = Math.floor(high), step = Math.max(1, Math.ceil((last - low) / most)), first = Math.max(1, Math.ceil(low));
    const made = [];
    for (let at = first; at <= last; at += step) made.push(at);
    return [made, 1];
  }
  const raw = (high - low) / Math.max(1, most), power = 10 ** Math.floor(Math.log10(raw));
  let step = [1, 2, 2.5, 5, 10].map(part => part * power).find(part => part >= raw * 0.999);
  if (isWhole) step = Math.max(1, Math.ceil(step));
  const made = [];
  for (let at = Math.ceil(low / step - 1e-9); at * step <= high + step * 1e-9; at++) made.push(at * step);
  return [made, step];
}
function axisText(value, step) {
  const size = Math.abs(value), [by, sign] = step >= 1e9 ? [1e9, "G"] : step >= 1e6 ? [1e6, "M"] : step >= 1e3 && size >= 1e4 ? [1e3, "k"] : [1, ""];
  if (value === 0) return "0";
  if (size < 1e-4) return value.toExponential(Math.max(0, Math.min(3, Math.round(Math.log10(size / step)))));
  const places = Math.max(0, Math.min(9, Math.ceil(-Math.log10(step / by) + 0.001 - 1e-9)));
  const [front, rest] = (value / by).toFixed(places).split(".");
  const kept = (rest || "").replace(/0+$/, "");
  return front.replace(/\B(?=(\d{3})+$)/g, THIN) + (kept && "." + kept) + sign;
}
const MONTHS = "Jan Feb Mar Apr May Jun Jul Aug Sep Oct Nov Dec".split(" ");
const two = number => String(number).padStart(2, "0");
/** Moments for the axis of dates, with the words of each. */
function dateTicks(low, high, most) {
  const steps = [1e3, 2e3, 5e3, 1e4, 15e3, 3e4, 6e4, 12e4, 3e5, 6e5, 9e5, 18e5, 36e5, 72e5, 108e5, 216e5, 432e5, DAY, 2 * DAY, 7 * DAY, 14 * DAY];
  const step = steps.find(part => (high - low) / part <= most), made = [];
  const text = date => step < 6e4 ? `${two(date.getUTCHours())}:${two(date.getUTCMinutes())}:${two(date.getUTCSeconds())}`
    : step < DAY && (date.getTime() % DAY) ? `${two(date.getUTCHours())}:${two(date.getUTCMinutes())}`
    : `${date.getUTCDate()} ${MONTHS[date.getUTCMonth()]}`;
  if (step) {
    for (let at = Math.ceil(low / step) * step; at <= high; at += step) made.push([at, text(new Date(at))]);
    return made;
  }
  const months = [1, 2, 3, 6, 12, 24, 60, 120].find(part => (high - low) / (part * 30.4 * DAY) <= most) || 240;
  for (let date = new Date(low), month = Math.ceil((date.getUTCFullYear() * 12 + date.getUTCMonth()) / months) * months; ; month += months) {
    const at = Date.UTC(Math.floor(month / 12), month % 12);
    if (at > high) return made;
    if (at >= low) made.push([at, month % 12 ? MONTHS[month % 12] + (months < 12 ? " " + Math.floor(month / 12) : "") : String(Math.floor(month / 12))]);
  }
}

// ---- charts

const MARKS = {slashed: ["var(--c5)", "M-5-4H5L0 5Z"], slash: ["var(--c5)", "M-5-4H5L0 5Z"], burn: ["var(--c5)", "M-5-4H5L0 5Z"],
  jailed: ["var(--c2)", "M-4-4H4V4H-4Z"], tombstoned: ["var(--ink)", "M-4-4L4 4M4-4L-4 4"], unjailed: ["var(--c3)", "M-5 4H5L0-5Z"],
  bonded: ["var(--c3)", "M0-5L5 0L0 5L-5 0Z"], unbonding: ["var(--c6)", "M0-5L5 0L0 5L-5 0Z"], unbonded: ["var(--c6)", "M0-5L5 0L0 5L-5 0Z"],
  created: ["var(--c1)", "M0-5A5 5 0 1 0 .01-5Z"], removed: ["var(--ink)", "M-4-4L4 4M4-4L-4 4"], params: ["var(--c4)", "M-4-4H4V4H-4Z"]};

function nearest(list, value) {
  let low = 0, high = list.length - 1;
  while (high - low > 1) { const middle = (low + high) >> 1; if (list[middle] < value) low = middle; else high = middle; }
  return high < 0 ? -1 : Math.abs(list[low] - value) <= Math.abs(list[high] - value) ? low : high;
}

class Chart {
  constructor({title, about, curves, marks = [], unit = "", fromZero = false, isWhole = false, isUpside = false, limit, hint, tall = 200}) {
    Object.assign(this, {title, unit, fromZero, isWhole, isUpside, limit, tall});
    this.curves = curves.filter(part => part.h.length);
    this.marks = marks.length ? this.markCurve(marks) : null;
    this.hidden = new Set();
    this.id = "chart" + Chart.made++;
    this.plot = el("div", {class: "plot"});
      this.node = el("figure", {class: "card", id: this.id}, el("figcaption", {}, el("h3", {}, title, unit && el("span", {text: unit})),
      about && el("p", {text: about})), this.plot);
    this.legend = this.legendOf();
    if (!this.curves.length) {
      this.plot.append(el("div", {class: "empty", text: hint || "No line of this run tells of it."}));
      return;
    }
    if (this.legend) this.node.append(this.legend);
    this.node.append(this.tableOf());
    this.picture = svg("svg", {tabindex: "0", role: "group", "aria-roledescription": "chart", "aria-label": this.told(),
      onkeydown: event => this.press(event), onblur: () => this.leave(), onpointermove: event => this.point(event),
      onpointerleave: () => this.leave(), onclick: event => { if (byId("tip").hidden) this.point(event); this.choose(); }});
    this.plot.append(this.picture);
    this.at = {curve: this.curves[0], index: this.curves[0].h.length - 1};
    Chart.watch(this);
  }
  markCurve(marks) {
    const rows = [...marks].sort((a, b) => a[0] - b[0]);
    return {name: "Events", isMarks: true, kinds: rows.map(row => row[2]), h: rows.map(row => row[0]), x: rows.map(row => millis(row[0])),
      shown: at => rows[at][2] + (rows[at][3] ? ": " + rows[at][3] : ""), y: [],
      fact: at => ({value: "", shown: rows[at][2] + (rows[at][3] ? ": " + rows[at][3] : ""), place: rows[at][1], height: rows[at][0], what: `the line that tells this`})};
  }
  /** The chart in a sentence, for those who do not see it. */
  told() {
    const parts = this.curves.map(part => {
      const least = part.y.indexOf(Math.min(...part.y)), most = part.y.indexOf(Math.max(...part.y)), last = part.h.length - 1;
      return `${part.name}: least ${part.shown(least)}, greatest ${part.shown(most)}, last ${part.shown(last)}`;
    });
    return `${this.title}. ${parts.join("; ")}. Left and right go along the points, up and down to another curve, Enter shows the line.`;
  }
  legendOf() {
    const parts = this.curves.length > 1 ? this.curves.map(part => el("button", {type: "button", "aria-pressed": "true",
      onclick: event => this.toggle(part, event.currentTarget)}, el("i", {style: `background:${part.colour}`}), part.name)) : [];
    const kinds = this.marks ? [...new Set(this.marks.kinds)] : [];
    for (const kind of kinds) {
      const [colour, form] = MARKS[kind] || MARKS.params;
      parts.push(el("span", {class: "key"}, svg("svg", {width: 12, height: 12, viewBox: "-6 -6 12 12", style: "width:12px", "aria-hidden": "true"},
        svg("path", {d: form, fill: colour, stroke: colour, "stroke-width": 1.5})), kind));
    }
    if (this.limit) parts.push(el("span", {class: "key"}, el("i", {style: "background:var(--c5)"}), this.limit.name));
    return parts.length ? el("div", {class: "legend"}, parts) : null;
  }
  toggle(part, button) {
    if (this.hidden.has(part)) this.hidden.delete(part); else if (this.seen().length > 1) this.hidden.add(part); else return;
    button.setAttribute("aria-pressed", String(!this.hidden.has(part)));
    this.draw();
  }
  seen() { return this.curves.filter(part => !this.hidden.has(part)); }
  tableOf() {
    const box = el("details", {}, el("summary", {text: "Points as a table"}));
    box.addEventListener("toggle", () => {
      if (box.children.length > 1) return;
      const rows = this.curves.flatMap(part => part.h.map((_, at) => ({part, at})));
      box.append(table({caption: `${this.title}: the points that are drawn`, rows, most: 12, columns: [
        {name: "Height", num: true, key: row => row.part.h[row.at], cell: row => count(row.part.h[row.at])},
        {name: "Time", key: row => row.part.x[row.at], cell: row => readable(momentText(row.part.h[row.at]))},
        this.curves.length > 1 && {name: "Curve", key: row => row.part.name, cell: row => row.part.name},
        {name: "Value", num: true, key: row => row.part.y[row.at], cell: row => {
          const fact = row.part.fact(row.at);
          const button = el("button", {class: "fig", type: "button", "data-place": fact.place, "data-height": fact.height, text: row.part.shown(row.at), onclick: () => showFact({...fact, back: button})});
          return button; }}].filter(Boolean)}));
    });
    return box;
  }
  range() {
    const seen = this.seen(), all = seen.flatMap(part => part.y);
    let low = Math.min(...all), high = Math.max(...all);
    if (this.limit) high = Math.max(high, this.limit.at);
    if (this.fromZero) low = Math.min(0, low);
    if (low === high) { const pad = low === 0 ? 1 : this.isWhole ? 1 : Math.abs(low) * 0.02; if (!this.fromZero) low -= low === 0 ? 0 : pad; high += pad; }
    const pad = this.isUpside ? 0 : (high - low) * 0.06;
    if (this.isUpside) { low = Math.max(1, low - 0.5) === 1 ? 0.6 : low - 0.5; high += 0.5; return [low, high]; }
    return [this.fromZero && low >= 0 ? 0 : low - pad, high + pad];
  }
  draw() {
    const width = Math.max(240, Math.round(this.plot.clientWidth)), top = this.marks ? 20 : 8, bottom = 24, tall = this.tall;
    const [low, high] = this.range(), [ticks, step] = ticksOf(low, high, 4, this.isUpside ? "rank" : this.isWhole);
    const texts = ticks.map(value => axisText(value, step)), left = 10 + 7 * Math.max(1, ...texts.map(text => text.length)), right = 8;
    const first = millis(run.from), last = Math.max(millis(run.to), first + 1);
    this.toX = moment => left + (width - left - right) * (Math.max(moment, first) - first) / (last - first);
    this.toY = value => (this.isUpside ? 1 : -1) * (value - low) / (high - low) * (tall - top - bottom) + (this.isUpside ? top : tall - bottom);
    this.edge = width - right;
    const grid = svg("g", {"aria-hidden": "true"});
    ticks.forEach((value, at) => {
      const y = this.toY(value);
      grid.append(svg("line", {x1: left, x2: width - right, y1: y, y2: y, stroke: "var(--grid)"}),
        svg("text", {x: left - 6, y: y + 4, "text-anchor": "end", text: texts[at]}));
    });
    let free = -99;
    for (const [moment, text] of dateTicks(first, last, Math.max(2, Math.floor((width - left) / 86)))) {
      const x = this.toX(moment), half = text.length * 3.4;
      grid.append(svg("line", {x1: x, x2: x, y1: tall - bottom, y2: tall - bottom + 4, stroke: "var(--strong)"}));
      const middle = Math.min(x, width - half);
      if (middle - half < free) continue;
      grid.append(svg("text", {x: middle, y: tall - 6, "text-anchor": "middle", text}));
      free = middle + half + 8;
    }
    grid.append(svg("line", {x1: left, x2: width - right, y1: tall - bottom, y2: tall - bottom, stroke: "var(--strong)"}));
    this.cursor = svg("g", {"aria-hidden": "true"});
    this.picture.setAttribute("viewBox", `0 0 ${width} ${tall}`);
    this.picture.setAttribute("height", tall);
    this.picture.replaceChildren(svg("rect", {width, height: tall, fill: "transparent"}), grid,
      ...this.limitLine(left), ...this.markShapes(tall - bottom), ...this.seen().map(part => this.shape(part)), this.cursor);
  }
  limitLine(left) {
    if (!this.limit) return [];
    const y = this.toY(this.limit.at);
    return [svg("line", {x1: left, x2: this.edge, y1: y, y2: y, stroke: "var(--c5)", "stroke-width": 1.5, "stroke-dasharray": "6 4"})];
  }
  markShapes(bottom) {
    if (!this.marks) return [];
    return this.marks.x.map((moment, at) => {
      const x = this.toX(moment), [colour, form] = MARKS[this.marks.kinds[at]] || MARKS.params;
      return svg("g", {"aria-hidden": "true"}, svg("line", {x1: x, x2: x, y1: 16, y2: bottom, stroke: colour, "stroke-width": 1, opacity: .28}),
        svg("path", {d: form, transform: `translate(${x} 9)`, fill: colour, stroke: colour, "stroke-width": 1.5}));
    });
  }
  shape(part) {
    const made = svg("g", {"aria-hidden": "true"}), {x, y} = part, near = number => Math.round(number * 10) / 10;
    const X = at => near(this.toX(x[at])), Y = at => near(this.toY(y[at]));
    let path = `M${X(0)} ${Y(0)}`, wide = 2;
    if (part.style === "step") {
      for (let at = 1; at < x.length; at++) path += `H${X(at)}V${Y(at)}`;
      path += `H${this.edge}`;
    } else {
      const parts = this.stepsOf(part);
      if (parts.some(([low, high]) => low !== high)) {
        const at = index => Math.min(index, x.length - 1);
        const upper = parts.map(([, high, end]) => `${X(at(end))} ${near(this.toY(high))}`), lower = parts.map(([low, , end]) => `${X(at(end))} ${near(this.toY(low))}`);
        made.append(svg("path", {d: `M${upper.join("L")}L${lower.reverse().join("L")}Z`, fill: part.colour, opacity: .28, stroke: part.colour, "stroke-width": 1, "stroke-linejoin": "round"}));
        wide = 1.1;
      }
      path = "M" + parts.map(([, , end]) => `${X(end)} ${Y(end)}`).join("L");
    }
    made.append(svg("path", {d: path, fill: "none", stroke: part.colour, "stroke-width": wide, "stroke-linejoin": "round", "stroke-linecap": "round"}));
    if (x.length <= 40) x.forEach((_, at) => made.append(svg("circle", {cx: X(at), cy: Y(at), r: x.length > 20 ? 2 : 2.8, fill: part.colour})));
    return made;
  }
  /** Of each step of a curve its least and greatest value, and the place of its last one. */
  stepsOf(part) {
    const made = [];
    let step = -1;
    part.h.forEach((height, at) => {
      const now = Math.floor((height - run.from) / part.step);
      if (now === step) {
        const last = made[made.length - 1];
        last[0] = Math.min(last[0], part.y[at]); last[1] = Math.max(last[1], part.y[at]); last[2] = at;
      } else made.push([part.y[at], part.y[at], at]);
      step = now;
    });
    return made;
  }
  point(event) {
    const box = this.picture.getBoundingClientRect(), view = this.picture.viewBox.baseVal;
    if (!view.width) return;
    const x = (event.clientX - box.left) * view.width / box.width, y = (event.clientY - box.top) * view.height / box.height;
    let best = null;
    if (this.marks && y < 22) {
      const index = nearest(this.marks.x.map(this.toX), x);
      if (index >= 0 && Math.abs(this.toX(this.marks.x[index]) - x) < 12) best = {curve: this.marks, index, far: -1};
    }
    if (!best) for (const part of this.seen()) {
      const places = part.places && part.scale === this.toX ? part.places : part.x.map(this.toX);
      part.places = places; part.scale = this.toX;
      const index = nearest(places, x), far = Math.abs(places[index] - x) + Math.abs(this.toY(part.y[index]) - y) * 0.6;
      if (!best || far < best.far) best = {curve: part, index, far};
    }
    this.at = best;
    this.show(event.clientX, event.clientY);
  }
  press(event) {
    const all = [...this.seen(), ...(this.marks ? [this.marks] : [])], now = Math.max(0, all.indexOf(this.at.curve));
    const size = this.at.curve.h.length, far = event.shiftKey ? 10 : 1;
    if (event.key === "ArrowLeft") this.at.index = Math.max(0, this.at.index - far);
    else if (event.key === "ArrowRight") this.at.index = Math.min(size - 1, this.at.index + far);
    else if (event.key === "Home") this.at.index = 0;
    else if (event.key === "End") this.at.index = size - 1;
    else if (event.key === "ArrowUp" || event.key === "ArrowDown") {
      const next = all[(now + (event.key === "ArrowUp" ? all.length - 1 : 1)) % all.length];
      this.at = {curve: next, index: nearest(next.h, this.at.curve.h[this.at.index])};
    } else if (event.key === "Enter" || event.key === " ") { event.preventDefault(); this.choose(); return; }
    else if (event.key === "Escape") { this.leave(); return; }
    else return;
    event.preventDefault();
    const {curve, index} = this.at, box = this.picture.getBoundingClientRect();
    this.show(box.left + this.toX(curve.x[index]), box.top + (curve.isMarks ? 9 : this.toY(curve.y[index])));
    byId("told").textContent = `${curve.name}: ${curve.shown(index)}, height ${curve.h[index]}, ${readable(momentText(curve.h[index]))}`;
  }
  /** What is told at the point that is meant: it, and what else has a point of that height. */
  show(clientX, clientY) {
    const {curve, index} = this.at, height = curve.h[index], x = this.toX(curve.x[index]), rows = [];
    for (const part of [...this.seen(), ...(this.marks ? [this.marks] : [])]) {
      const at = part === curve ? index : part.h.indexOf(height);
      if (at >= 0) rows.push(el("div", {}, part.isMarks ? null : el("i", {style: `background:${part.colour}`}),
        el("span", {text: part.isMarks ? "" : part.name}), el("b", {text: part.shown(at)})));
    }
    this.cursor.replaceChildren(svg("line", {x1: x, x2: x, y1: 4, y2: this.tall - 24, stroke: "var(--ink)", "stroke-width": 1, opacity: .5}));
    if (!curve.isMarks) this.cursor.append(svg("circle", {cx: x, cy: this.toY(curve.y[index]), r: 4.5, fill: curve.colour, stroke: "var(--card)", "stroke-width": 2}));
    const tip = byId("tip");
    tip.replaceChildren(el("div", {class: "soft", text: `height ${count(height)} \u00b7 ${readable(momentText(height))}`}), ...rows);
    Object.assign(tip.dataset, {height, place: curve.fact(index).place, value: curve.fact(index).value || ""});
    tip.hidden = false;
    const size = tip.getBoundingClientRect();
    tip.style.left = `${Math.max(8, Math.min(innerWidth - size.width - 8, clientX - size.width / 2))}px`;
    tip.style.top = `${clientY - size.height - 18 < 4 ? clientY + 22 : clientY - size.height - 18}px`;
  }
  leave() { byId("tip").hidden = true; if (this.cursor) this.cursor.replaceChildren(); }
  choose() { if (this.at) showFact({...this.at.curve.fact(this.at.index), back: this.picture}); }
  static watch(chart) {
    if (!Chart.watcher) Chart.watcher = new ResizeObserver(entries => entries.forEach(entry => {
      const seen = Chart.all.get(entry.target);
      if (seen && seen.width !== entry.contentRect.width) { seen.width = entry.contentRect.width; seen.draw(); }
    }));
    Chart.all.set(chart.plot, chart);
    Chart.watcher.observe(chart.plot);
  }
}
Chart.made = 0;
Chart.all = new Map();
const charts = list => el("div", {class: "charts"}, list.map(chart => chart.node));

/** A small picture of a curve, for a row of a table. */
function spark(text, places) {
  const made = points(text, places), values = made.v.map(Number), low = Math.min(...values), high = Math.max(...values);
  const first = run.from, last = Math.max(run.to, first + 1);
  const X = at => Math.round(108 * (made.h[at] - first) / (last - first) * 10) / 10 + 1;
  const Y = at => high === low ? 13 : Math.round((23 - 20 * (values[at] - low) / (high - low)) * 10) / 10;
  if (!values.length) return el("span", {class: "soft", text: "\u2013"});
  let path = `M${X(0)} ${Y(0)}`;
  for (let at = 1; at < values.length; at++) path += `H${X(at)}V${Y(at)}`;
  return svg("svg", {class: "spark", viewBox: "0 0 110 26", "aria-hidden": "true"}, svg("path", {d: path + "H109", fill: "none", stroke: "var(--c1)", "stroke-width": 1.5}));
}

// ---- tables

const compare = (a, b) => a === b ? 0 : a === null || a === undefined ? 1 : b === null || b === undefined ? -1 : a < b ? -1 : 1;

function table({id, caption, columns, rows, most = 25, filter, sorted, current, pin, of}) {
  const state = {by: sorted ? sorted[0] : -1, down: sorted ? sorted[1] : false, words: "", shown: most};
  const body = el("tbody"), told = el("span", {class: "count", role: "status"}), heads = columns.map((column, at) => {
    const button = el("button", {type: "button", text: column.name, onclick: () => {
      state.down = state.by === at ? !state.down : Boolean(column.num);
      state.by = at;
      fill();
    }});
    return el("th", {scope: "col", class: column.num ? "num" : null}, column.key ? button : el("span", {text: column.name}));
  });
  const more = el("button", {class: "push", type: "button", text: "More rows", onclick: () => { state.shown += 10 * most; fill(); }});
  const find = filter && el("input", {type: "search", placeholder: filter, "aria-label": filter, oninput: event => {
    state.words = event.target.value.trim().toLowerCase(); state.shown = most; fill(); }});
  const texts = new Map();
  const textOf = row => { if (!texts.has(row)) texts.set(row, columns.map(column => column.text ? column.text(row) : "").join(" ").toLowerCase()); return texts.get(row); };
  function fill() {
    let kept = state.words ? rows.filter(row => state.words.split(/\s+/).every(word => textOf(row).includes(word))) : [...rows];
    if (state.by >= 0) {
      const {key} = columns[state.by];
      kept = kept.map(row => [key(row), row]).sort((a, b) => {
        const order = compare(a[0], b[0]);
        return a[0] === null || a[0] === undefined || b[0] === null || b[0] === undefined ? order : state.down ? -order : order;
      }).map(pair => pair[1]);
    }
    heads.forEach((head, at) => { if (columns[at].key) head.setAttribute("aria-sort", at !== state.by ? "none" : state.down ? "descending" : "ascending"); });
    const shown = kept.slice(0, state.shown);
    body.replaceChildren(...shown.map(row => el("tr", {"aria-current": current && current(row) ? "true" : null, "data-of": of ? of(row) : null},
      columns.map(column => el("td", {class: column.num ? "num" : null}, column.cell(row))))));
    if (!kept.length) body.append(el("tr", {}, el("td", {colspan: columns.length, class: "soft", text: rows.length ? "No row has these words." : "There are none."})));
    more.hidden = kept.length <= state.shown;
    told.textContent = shown.length === rows.length ? plural(rows.length, "row") : `${count(shown.length)} of ${count(kept.length)} rows`
      + (kept.length < rows.length ? `, ${count(rows.length)} without the filter` : "");
  }
  fill();
  const box = el("div", {class: "scroll", tabindex: "0", role: "region", "aria-label": caption},
    el("table", {class: pin ? "pin" : null}, el("caption", {class: "vh", text: caption}), el("thead", {}, el("tr", {}, heads)), body));
  const node = el("div", {id: id || null}, el("div", {class: "bar"}, find, told), el("div", {class: "card"}, box), el("div", {class: "bar"}, more));
  node.fill = fill;
  return node;
}
const tile = (name, value, ...rest) => el("dl", {class: "tile"}, el("dt", {text: name}), el("dd", {}, value), rest.map(part => part && el("dd", {}, part)));
const address = (text, full) => el("span", {class: "addr", title: text, text: full ? text : short(text)});
const lineButton = (place, height, what) => {
  const button = el("button", {class: "fig", type: "button", "data-place": place, "data-height": height, text: count(lineOf(place)),
    onclick: () => showFact({value: "", shown: what, place, height, what: "", back: button})});
  return button;
};
