"use strict";
// Draws a rehearsal: the cue list, of which only the rows and columns in sight are there, and the time line on a canvas.
// Every level is one that the program wrote; here they are unpacked, placed and named.

const D = JSON.parse(document.getElementById("data").textContent);
const get = id => document.getElementById(id);
const LINE = 24, CELL = 34, FIXED = innerWidth < 760 ? [52, 92, 52, 52, 44] : [62, 264, 88, 88, 62], HEADS = ["cue", "label", "up", "down", "follow"], LEFT = FIXED.reduce((a, b) => a + b), TOP = 90;
const PRINTED = 30000, LISTED = 300, REST = 1000, SHORT = 2;
const count = n => n.toLocaleString("en"), many = (n, one) => `${count(n)} ${one}${n === 1 ? "" : "s"}`;
const safe = text => text.replace(/[&<>"]/g, c => `&#${c.charCodeAt(0)};`);

/** The bytes of packed rows: base 64, compressed, each row as its difference from the one before. */
async function unpack(text, width) {
  const packed = await fetch("data:application/octet-stream;base64," + text);
  const bytes = new Uint8Array(await new Response(packed.body.pipeThrough(new DecompressionStream("gzip"))).arrayBuffer());
  for (let i = width; i < bytes.length; i++) bytes[i] ^= bytes[i - width];
  return bytes;
}

/** A level as desks show it: per cent, FL for full, and nothing below 1 but 0. */
const percent = level => level === 255 ? "FL" : level ? String(Math.min(99, Math.max(1, Math.round(level / 2.55)))) : "0";
const spoken = level => level === 255 ? "full, 255 of 255" : `${percent(level)} per cent, ${level} of 255`;
/** A moment: seconds, or from a minute on minutes, or hours. */
function seconds(hundredths) {
  const s = hundredths / 100, two = n => String(Math.floor(n)).padStart(2, "0");
  if (s < 60) return s.toFixed(2) + " s";
  const rest = two(s % 60) + "." + two(hundredths % 100);
  return s < 3600 ? `${Math.floor(s / 60)}:${rest}` : `${Math.floor(s / 3600)}:${two(s / 60 % 60)}:${rest}`;
}

const C = D.channels.length, M = D.times.length;
let rows, moves, frames;            // what the program gave: tracked levels and parts of moves by row, outputs by moment
let columns = [...D.channels.keys()], at = 0, offsets = [], cell = [0, 0], playing = 0, zoom = 1, drawn = "";

// --- The cue list ---------------------------------------------------------------------------------------------------

const cues = () => D.shows[D.show[at]];
const partsOf = k => D.cues[cues()[k][0]][6];
const isRunning = k => D.names[D.running[at]].includes(D.cues[cues()[k][0]][0]);

/** The top of each row; a cue has a line for each part. */
function layOut() {
  offsets = [0];
  for (let k = 0; k < cues().length; k++) offsets.push(offsets[k] + LINE * Math.max(1, partsOf(k).length));
  get("sheet").style.width = LEFT + columns.length * CELL + 2 + "px";
  get("sheet").style.height = TOP + offsets[cues().length] + 2 + "px";
  get("grid").style.height = `min(60vh, ${TOP + offsets[cues().length] + (LEFT + columns.length * CELL > get("grid").clientWidth ? 20 : 5)}px)`;
  get("grid").setAttribute("aria-rowcount", cues().length + 2);
  get("grid").setAttribute("aria-colcount", FIXED.length + columns.length);
}

/** The first place whose value isn't below the one given. */
function placeOf(list, value) {
  let a = 0, b = list.length;
  while (a < b) { const m = a + b >> 1; if (list[m] < value) a = m + 1; else b = m; }
  return a;
}

/** The rows and columns in sight, with a few beside them. */
function inSight() {
  const g = get("grid"), n = cues().length, first = Math.max(0, Math.min(columns.length - 1, Math.floor(g.scrollLeft / CELL)));
  return [Math.max(0, placeOf(offsets, g.scrollTop) - 2), Math.min(n, placeOf(offsets, g.scrollTop + g.clientHeight - TOP) + 1),
    first, Math.max(first, Math.min(columns.length, Math.ceil((g.scrollLeft + g.clientWidth - LEFT) / CELL)))];
}

const time = ([time, delay]) => time + (delay === "0" ? "" : ` <small>+${delay}</small>`);

/** What stands in one of the five columns before the channels. */
function field(k, column) {
  const [number, label, block, asserted, follow, link, parts] = D.cues[cues()[k][0]];
  const each = (from) => parts.map(p => (parts.length > 1 ? `<small>${p[0]}:</small> ` : "") + time(p.slice(from, from + 2))).join("<br>");
  const tags = (block ? '<span class="tag">block</span>' : "") + (asserted ? '<span class="tag">assert</span>' : "") + (link ? `<span class="tag">link ${link}</span>` : "");
  return [(isRunning(k) ? "▶ " : "") + number, tags + safe(label), each(1), each(3), follow][column];
}

/** What stands in one of the five columns, in words. */
function fieldSpoken(k, column) {
  const [number, label, block, asserted, follow, link, parts] = D.cues[cues()[k][0]];
  const each = (name, from) => name + parts.map(p => `${parts.length > 1 ? ` part ${p[0]},` : ""} ${p[from]} seconds${p[from + 1] === "0" ? "" : `, delay ${p[from + 1]}`}`).join(";");
  return [`cue ${number}${isRunning(k) ? ", runs now" : ""}`, (label || "no label") + (block ? ", block" : "") + (asserted ? ", assert" : "") + (link ? `, link to ${link}` : ""), each("up:", 1), each("down:", 3),
    follow ? `the next cue follows after ${follow} seconds` : "no follow-on"][column];
}

/** A cue's level of a channel in words. */
function levelSpoken(k, column) {
  const [c, r] = cues()[k], i = r * C + columns[column], part = moves[i];
  const what = part ? (rows[i] ? `moves to ${spoken(rows[i])}` : "moves to 0") + (partsOf(k).length > 1 ? `, part ${part}` : "") : rows[i] ? `tracked at ${spoken(rows[i])}` : "0";
  return `cue ${D.cues[c][0]}, channel ${D.channels[columns[column]]}: ${what}`;
}

/** The words for any place of the grid: row 0 has the heads, 1 the outputs now, then the cues; columns 0 to 4 are the fields. */
function wordsAt(row, column) {
  const k = column - FIXED.length;
  if (row === 0) return k < 0 ? HEADS[column] : `channel ${D.channels[columns[k]]}`;
  if (row === 1) return k < 0 ? `outputs at ${seconds(D.times[at])}` : `channel ${D.channels[columns[k]]} puts out ${spoken(frames[at * C + columns[k]])}`;
  return k < 0 ? fieldSpoken(row - 2, column) : levelSpoken(row - 2, k);
}

/** The attributes that name a cell for a screen reader. */
const named = (row, column, role = "gridcell") => `id="g${row}-${column}" role="${role}" aria-colindex="${column + 1}" aria-label="${safe(wordsAt(row, column))}"`;

/** How bright a move or a tracked level is behind its number. */
const shade = (moved, level) => !level ? "" : moved ? `;background:rgb(var(--hot)/${(.18 + .72 * level / 255).toFixed(2)})` : `;background:rgb(var(--grey)/${(.06 + .22 * level / 255).toFixed(2)})`;

function levelCell(k, row, column) {
  const i = cues()[k][1] * C + columns[column], level = rows[i], moved = moves[i];
  const kind = moved ? level ? level > 175 ? "m bright" : "m" : "o" : level ? "t" : "";
  return `<div class="cell ${kind}" style="left:${LEFT + column * CELL}px${shade(moved, level)}" ${named(row, column + FIXED.length)}>${moved || level ? percent(level) : ""}</div>`;
}

function cueRow(k, first, last) {
  const [, , block, asserted] = D.cues[cues()[k][0]], row = k + 2, run = isRunning(k);
  let out = `<div class="row${block ? " block" : ""}${asserted ? " assert" : ""}${run ? " now" : ""}" role="row" data-k="${k}" aria-rowindex="${row + 1}"${run ? ' aria-current="true"' : ""} style="top:${TOP + offsets[k]}px;height:${offsets[k + 1] - offsets[k]}px;line-height:${offsets[k + 1] - offsets[k] - 1 - 2 * block}px"><div class="fixed" role="presentation" style="width:${LEFT}px">`;
  for (let c = 0; c < FIXED.length; c++) out += `<div class="${c === 0 ? "number" : c === 1 ? "l" : ""}" style="width:${FIXED[c]}px" ${named(row, c, c ? "gridcell" : "rowheader")}>${field(k, c)}</div>`;
  out += "</div>";
  for (let c = first; c < last; c++) out += levelCell(k, row, c);
  return out + "</div>";
}

/** The two rows that stay at the top: channel numbers, and a bar for each output at the moment. */
function topRows(first, last) {
  let head = '<div class="row head" role="row" aria-rowindex="1" style="top:0;height:24px"><div class="fixed" role="presentation" style="width:' + LEFT + 'px">';
  HEADS.forEach((name, c) => { head += `<div class="${c === 1 ? "l" : ""}" style="width:${FIXED[c]}px" ${named(0, c, "columnheader")}>${name}</div>`; });
  head += "</div>";
  let stage = `<div class="row stage" role="row" aria-rowindex="2" style="top:24px;height:66px"><div class="fixed" role="presentation" style="width:${LEFT}px"><div class="l" style="width:${LEFT}px" ${named(1, 0, "rowheader")}>on stage at <b>${seconds(D.times[at])}</b><br>cue <b>${D.names[D.running[at]].map(n => n === "0" ? "none" : n).join(" and ")}</b><br>${after()}</div></div>`;
  for (let c = first; c < last; c++) {
    const level = frames[at * C + columns[c]], left = LEFT + c * CELL;
    head += `<div class="cell" style="left:${left}px" ${named(0, c + FIXED.length, "columnheader")}>${D.channels[columns[c]]}</div>`;
    stage += `<div class="cell" style="left:${left}px" ${named(1, c + FIXED.length)}>${level ? `<i style="height:${Math.max(3, level / 255 * 48)}px"></i><span>${percent(level)}</span>` : ""}</div>`;
  }
  return `<div class="top" role="rowgroup">${head}</div>${stage}</div></div>`;
}

/** The line that led to the moment. */
function after() {
  const line = D.lines[D.lineOf[at]];
  return line ? `after line ${line[0]}: ${safe(line[1].split("!")[0].trim())}` : "at the opening";
}

/** Draws what is in sight of the cue list; where only the rows in sight changed, those that stay are kept. */
function drawGrid(force) {
  const [top, bottom, first, last] = inSight(), wide = [first, last, D.show[at]].join(), key = wide + "," + [top, bottom];
  if (key === drawn && !force) return;
  if (force || !drawn.startsWith(wide + ",")) get("sheet").innerHTML = topRows(first, last) + '<div role="rowgroup" id="rows"></div>';
  drawn = key;
  const body = get("rows");
  for (const row of [...body.children]) if (+row.dataset.k < top || +row.dataset.k >= bottom) row.remove();
  let next = body.firstElementChild, out = "", from = next;
  const put = () => { if (out) from ? from.insertAdjacentHTML("beforebegin", out) : body.insertAdjacentHTML("beforeend", out); out = ""; };
  for (let k = top; k < bottom; k++) {
    if (next && +next.dataset.k === k) { put(); next = from = next.nextElementSibling; } else out += cueRow(k, first, last);
  }
  put();
  const name = k => D.cues[cues()[k][0]][0], listed = cues().length ? `cues ${name(top)} to ${name(bottom - 1)} of ${many(cues().length, "cue")}, ` : "";
  get("sight").textContent = bottom - top >= cues().length && last - first >= columns.length ? "" : `In sight: ${listed}${count(last - first)} of ${many(columns.length, "channel")}; the others are drawn as they come into sight.`;
  activate();
}

/** Draws the rows at the top again, of which one has the outputs at the moment. */
function drawStage() {
  const [, , first, last] = inSight();
  document.querySelector(".top").outerHTML = topRows(first, last);
  activate();
}

/** Shows which cell the arrow keys stand on, and says it. */
function activate() {
  const id = `g${cell[0]}-${cell[1]}`, here = get(id);
  document.querySelectorAll(".active").forEach(e => e.classList.remove("active"));
  if (here && document.activeElement === get("grid")) { here.classList.add("active"); get("grid").setAttribute("aria-activedescendant", id); }
}

function moveTo(row, column) {
  const g = get("grid"), most = FIXED.length + columns.length - 1;
  cell = [Math.max(0, Math.min(cues().length + 1, row)), Math.max(0, Math.min(most, column))];
  const k = cell[0] - 2, left = (cell[1] - FIXED.length) * CELL;
  if (k >= 0) g.scrollTop = Math.min(Math.max(g.scrollTop, TOP + offsets[k + 1] - g.clientHeight + 2), offsets[k]);
  if (left >= 0) g.scrollLeft = Math.min(Math.max(g.scrollLeft, LEFT + left + CELL - g.clientWidth + 2), left);
  drawGrid(true);
  get("read").textContent = cell[0] === 1 && cell[1] > 0 && cell[1] < FIXED.length ? "" : wordsAt(...cell);
}

function gridKey(event) {
  if (event.altKey || event.metaKey) return;
  const [r, c] = cell, page = Math.max(1, Math.floor(get("grid").clientHeight / LINE) - 4), end = FIXED.length + columns.length;
  const to = { ArrowUp: [r - 1, c], ArrowDown: [r + 1, c], ArrowLeft: [r, c - 1], ArrowRight: [r, c + 1], PageUp: [r - page, c], PageDown: [r + page, c],
    Home: event.ctrlKey ? [0, 0] : [r, 0], End: event.ctrlKey ? [cues().length + 1, end] : [r, end] }[event.key];
  if (to) { event.preventDefault(); event.stopPropagation(); moveTo(...to); }
}

// --- The time line --------------------------------------------------------------------------------------------------

const axis = new Float64Array(M), rests = [];
/** Seconds along the axis: as time goes, but a rest of more than ten seconds takes two. */
function layAxis() {
  for (let i = 1; i < M; i++) {
    const gap = D.times[i] - D.times[i - 1];
    axis[i] = axis[i - 1] + (gap > REST ? SHORT : gap / 100);
    if (gap > REST) rests.push(i);
  }
}

const HEAD = 52, GUTTER = 46, FOOT = 20;
const lane = () => Math.max(16, Math.min(60, Math.floor(400 / Math.max(1, columns.length))));
const end = () => axis[M - 1] || 1;
const width = () => get("roll").clientWidth;
const across = a => GUTTER + a / end() * (width() * zoom - GUTTER - 14) - get("roll").scrollLeft;
const colour = name => getComputedStyle(document.documentElement).getPropertyValue(name).trim();

/** The moment under a place on the canvas. */
function momentAt(x) {
  const a = (x + get("roll").scrollLeft - GUTTER) / (width() * zoom - GUTTER - 14) * end();
  return Math.max(0, Math.min(M - 1, placeOf(axis, a + 1e-9) - 1));
}

const still = document.createElement("canvas");

/** Draws the strips, the marks and the seconds, all but the present moment, and shows them. */
function drawRoll() {
  const roll = get("roll"), canvas = get("strips"), w = width(), h = Math.min(HEAD + FOOT + lane() * columns.length, Math.round(innerHeight * .62)), scale = devicePixelRatio || 1;
  roll.style.height = h + (zoom > 1 ? 18 : 2) + "px";
  get("long").style.width = w * zoom + "px"; get("long").style.height = HEAD + FOOT + lane() * columns.length + "px";
  still.width = canvas.width = w * scale; still.height = canvas.height = h * scale; canvas.style.width = w + "px"; canvas.style.height = h + "px";
  const g = still.getContext("2d");
  g.scale(scale, scale); g.font = '11px system-ui, "DejaVu Sans", sans-serif';
  const first = Math.floor(roll.scrollTop / lane()), last = Math.min(columns.length, Math.ceil((roll.scrollTop + h - HEAD) / lane()));
  for (let k = first; k < last; k++) drawStrip(g, k, HEAD + k * lane() - roll.scrollTop, w);
  drawFrame(g, w, h); drawMarks(g, w, h); drawNow();
  canvas.setAttribute("aria-label", `Outputs of channels ${D.channels[columns[first]] ?? "none"} to ${D.channels[columns[last - 1]] ?? "none"} from ${seconds(D.times[0])} to ${seconds(D.times[M - 1])}, ${D.marks.length} keys, follow-ons, edits and lines that weren't done; the numbers are in the row 'on stage' of the cue list and in the script below.`);
}

/** One channel: an area as high as its output, of which each pixel has the highest and the last, with an edge where it is up. */
function drawStrip(g, k, top, w) {
  const base = top + lane() - 3, high = lane() - 6, channel = columns[k], area = new Path2D(), edge = new Path2D();
  const from = Math.max(0, momentAt(0) - 1), to = Math.min(M - 1, momentAt(w) + 1);
  let pixel = -9, best = 0, before = 0, waits = null;
  const put = (x, level) => {
    area.lineTo(x, base - level / 255 * high);
    if (level || before) edge.lineTo(x, base - level / 255 * high); else edge.moveTo(x, base);
    before = level; waits = null;
  };
  area.moveTo(across(axis[from]), base); edge.moveTo(across(axis[from]), base);
  for (let i = from; i <= to; i++) {
    const x = across(axis[i]), level = frames[i * C + channel], same = Math.floor(x) === pixel;
    if (same && level <= best) { waits = [x, level]; continue; }
    if (waits) put(...waits);
    best = level; pixel = Math.floor(x);
    put(x, level);
  }
  if (waits) put(...waits);
  area.lineTo(across(axis[to]), base);
  g.fillStyle = colour("--bar"); g.fill(area); g.strokeStyle = colour("--edge"); g.lineWidth = 1.5; g.stroke(edge);
  g.strokeStyle = colour("--line"); g.lineWidth = 1; g.beginPath(); g.moveTo(GUTTER, base + 1.5); g.lineTo(w, base + 1.5); g.stroke();
}

/** The channel numbers, the seconds and the rests. */
function drawFrame(g, w, h) {
  const roll = get("roll"), step = [.5, 1, 2, 5, 10, 30, 60, 300, 600, 3600].find(e => end() / e < 16 * zoom) || 36000;
  g.fillStyle = colour("--bg"); g.fillRect(0, 0, GUTTER - 4, h); g.fillRect(0, 0, w, HEAD - 4); g.fillRect(0, h - FOOT, w, FOOT);
  g.fillStyle = colour("--dim"); g.textAlign = "right";
  for (let k = Math.floor(roll.scrollTop / lane()); k < columns.length; k++) {
    const y = HEAD + k * lane() - roll.scrollTop + lane() / 2 + 4;
    if (y > h - FOOT) break;
    if (y > HEAD) g.fillText(D.channels[columns[k]], GUTTER - 8, y);
  }
  g.textAlign = "center";
  for (let t = 0; t <= D.times[M - 1] / 100 + 1e-9; t += step) {
    const i = Math.max(0, placeOf(D.times, t * 100)), before = Math.max(0, i - 1);
    if (D.times[i] - D.times[before] > REST && D.times[i] !== t * 100) { t = Math.max(t, Math.floor(D.times[i] / 100 / step) * step); continue; }
    const a = axis[i] - (D.times[i] - t * 100) / 100, x = across(a);
    if (x >= GUTTER - 4) g.fillText(+t.toFixed(1) + " s", x, h - 5);
  }
  for (const i of rests) { const x = across((axis[i] + axis[i - 1]) / 2); if (x > GUTTER) g.fillText(`// ${seconds(D.times[i] - D.times[i - 1])}`, x, h - 5); }
}

const STYLES = { key: ["--fg", [], ""], follow: ["--follow", [5, 3], "⤷ "], edit: ["--edge", [1, 3], ""], fader: ["--edge", [1, 3], ""], wrong: ["--bad", [2, 5], "✗ "] };

/** The keys, follow-ons, edits and wrong lines, named where there is room in one of three rows. */
function drawMarks(g, w, h) {
  const free = [GUTTER - 30, GUTTER - 30, GUTTER - 30];
  g.textAlign = "left";
  for (const [moment, kind, text] of D.marks) {
    const x = across(axis[moment]), [ink, dashes, sign] = STYLES[kind];
    if (x < GUTTER - 1 || x > w) continue;
    g.strokeStyle = g.fillStyle = colour(ink); g.setLineDash(dashes);
    const name = sign + (text.length > 40 ? text.slice(0, 39) + "…" : text), row = free.findIndex(until => x >= until), y = row < 0 ? HEAD - 4 : 12 + row * 14;
    g.beginPath(); g.moveTo(x, y - (row < 0 ? 0 : 9)); g.lineTo(x, h - FOOT); g.stroke();
    if (row < 0) continue;
    const long = g.measureText(name).width + 10, back = x + long > w && x - long > (free[row] || 0);
    g.fillText(name, back ? x - long + 6 : x + 3, y); free[row] = back ? x + 4 : x + long;
  }
  g.setLineDash([]);
}

/** Shows what was drawn, and the present moment over it. */
function drawNow() {
  if (!still.width) return;
  const g = get("strips").getContext("2d"), scale = devicePixelRatio || 1, x = across(axis[at]), h = still.height / scale;
  g.setTransform(1, 0, 0, 1, 0, 0); g.clearRect(0, 0, still.width, still.height); g.drawImage(still, 0, 0); g.scale(scale, scale);
  if (x < GUTTER - 1) return;
  g.fillStyle = colour("--now"); g.fillRect(x - 1, HEAD - 8, 2, h - HEAD - FOOT + 8);
  g.beginPath(); g.moveTo(x - 5, HEAD - 9); g.lineTo(x + 5, HEAD - 9); g.lineTo(x, HEAD - 1); g.fill();
}

// --- The moment -----------------------------------------------------------------------------------------------------

/** Goes to a moment, and draws what depends on it. */
function show(moment, quiet) {
  const before = at;
  at = Math.max(0, Math.min(M - 1, moment));
  const running = D.names[D.running[at]].map(n => n === "0" ? "no cue" : "cue " + n).join(" and "), line = D.lines[D.lineOf[at]];
  get("at").value = at;
  get("at").setAttribute("aria-valuetext", `${seconds(D.times[at])}, ${running}${line ? `, after line ${line[0]}` : ""}`);
  get("now").innerHTML = `<b>${seconds(D.times[at])}</b> ▶ ${running} <small>${count(at + 1)} of ${count(M)}</small>`;
  if (D.show[before] !== D.show[at]) layOut();
  if (D.running[before] !== D.running[at]) follow();
  if (D.show[before] !== D.show[at] || D.running[before] !== D.running[at]) drawGrid(true); else drawStage();
  drawNow();
  if (D.lineOf[before] !== D.lineOf[at]) listScript();
  if (!quiet && cell[0] === 1) get("read").textContent = wordsAt(...cell);
}

/** Brings the running cue into sight. */
function follow() {
  const g = get("grid"), k = cues().findIndex((_, i) => isRunning(i));
  if (k >= 0 && (offsets[k] < g.scrollTop || offsets[k + 1] + TOP > g.scrollTop + g.clientHeight)) g.scrollTop = Math.max(0, offsets[k] - LINE * 3);
}

/** Plays from here, as fast as is chosen; a rest is cut short as the axis is. */
function play() {
  if (playing) return stop();
  if (at === M - 1) show(0);
  let last = performance.now(), a = axis[at];
  const beat = now => {
    a += (now - last) / 1000 * get("speed").value; last = now;
    let next = at;
    while (next < M - 1 && axis[next + 1] <= a) next++;
    if (next !== at) show(next, true);
    if (at === M - 1) stop(); else if (playing) playing = requestAnimationFrame(beat);
  };
  playing = requestAnimationFrame(beat);
  get("play").textContent = "⏸ pause"; get("play").setAttribute("aria-pressed", "true");
}

function stop() {
  cancelAnimationFrame(playing); playing = 0;
  get("play").textContent = "▶ play"; get("play").setAttribute("aria-pressed", "false");
  show(at);
}

/** The moments at which a line is done, to step between. */
const stops = () => [...new Set([0, ...D.lines.map(line => line[4]), ...D.marks.map(mark => mark[0])])].sort((a, b) => a - b);
const step = way => { const list = stops(), k = placeOf(list, at); show(way < 0 ? list[k - 1] ?? 0 : list[list[k] === at ? k + 1 : k] ?? M - 1); };

// --- The script and the words about it ------------------------------------------------------------------------------

/** The lines about the moment, each with its answer. */
function listScript() {
  const here = Math.max(0, D.lineOf[at]), from = Math.max(0, Math.min(here - LISTED / 2, D.lines.length - LISTED)), some = D.lines.slice(from, from + LISTED);
  get("script").innerHTML = some.map(([number, text, reply, kind, moment, meaning], i) => `<tr${from + i === D.lineOf[at] ? ' aria-current="true"' : ""}><td>${reply ? `<button data-moment="${moment}" aria-label="to line ${number}">${number}</button>` : number}<td>${reply ? seconds(D.times[moment]) : ""}<td class="l"><code>${safe(text)}</code><td class="l ${kind === "wrong" ? "wrong" : ""}">${kind === "wrong" ? "✗ " : ""}${safe(reply)}${meaning ? ` <small>(${meaning})</small>` : ""}`).join("");
  get("part").textContent = D.lines.length > some.length ? `Lines ${count(from + 1)} to ${count(from + some.length)} of ${count(D.lines.length)}, about the moment; the others come as it moves.` : "";
}

function about() {
  const wrong = D.lines.filter(line => line[3] === "wrong");
  get("title").textContent = D.title + (D.script !== D.title ? ` with ${D.script}` : "");
  get("about").textContent = `${many(cues().length, "cue")}, ${many(C, "channel")}; ${D.given ? `a script of ${many(D.lines.length, "line")}, ${seconds(D.times[M - 1])} long` : "no script"}`;
  get("notes").innerHTML = D.notes.map(note => `<li>${safe(note)}`).join("");
  get("wrong").hidden = !wrong.length;
  get("wrong").innerHTML = `<b>✗ ${count(wrong.length)} ${wrong.length === 1 ? "line of the script wasn't" : "lines of the script weren't"} done</b>, and changed nothing:<ul>` + wrong.slice(0, 12).map(([number, text, reply, , moment, meaning]) => `<li><button data-moment="${moment}" aria-label="to line ${number}">line ${number}</button> <code>${safe(text.trim().slice(0, 120))}</code> ✗ ${safe(reply)} <small>(${meaning})</small>`).join("") + "</ul>" + (wrong.length > 12 ? `and ${count(wrong.length - 12)} more, which stand in the script below.` : "");
  get("set").innerHTML = [["all", null], ...D.sets].map(([name], i) => `<option value="${i}">${safe(name)}`).join("");
  get("choice").hidden = !D.sets.length;
  if (M < 2) ["controls", "time"].forEach(id => { get(id).hidden = true; get(id).style.display = "none"; });
  if (!D.lines.length) get("lines").hidden = true;
}

/** The tables that are printed, as many cells as a printer should be asked for. */
function printed() {
  const list = cues(), wide = 22, some = Math.min(columns.length, Math.max(wide, Math.floor(PRINTED / Math.max(1, list.length)))), few = Math.min(list.length, Math.floor(PRINTED / wide));
  let out = "";
  for (let from = 0; from < Math.max(1, some); from += wide) {
    const part = columns.slice(from, Math.min(from + wide, some));
    out += `<table><thead><tr>${HEADS.map((h, i) => `<th class="${i === 1 ? "l" : ""}">${h}`).join("")}${part.map(c => `<th>${D.channels[c]}`).join("")}<tbody>` + list.slice(0, few).map((entry, k) => {
      const [, , block, asserted] = D.cues[entry[0]];
      return `<tr class="${block ? "block" : ""} ${asserted ? "assert" : ""}">${HEADS.map((_, c) => `<td class="${c === 1 ? "l" : ""}">${field(k, c)}`).join("")}` + part.map(c => { const i = entry[1] * C + c; return `<td class="${moves[i] ? rows[i] ? "m" : "o" : rows[i] ? "t" : ""}" style="${shade(moves[i], rows[i]).slice(1)}">${moves[i] || rows[i] ? percent(rows[i]) : ""}`; }).join("");
    }).join("") + "</table>";
  }
  if (some < columns.length || few < list.length) out = `<p>Printed: the first ${count(few)} of ${count(list.length)} cues and ${count(some)} of ${count(columns.length)} channels. Choose channels to print others.</p>` + out;
  get("print").innerHTML = `<h2>Cue list at ${seconds(D.times[at])}</h2>` + out;
  document.documentElement.classList.add("printing"); drawRoll();
}

function afterPrint() { document.documentElement.classList.remove("printing"); get("print").innerHTML = ""; drawRoll(); }

// --- Hands ----------------------------------------------------------------------------------------------------------

function choose() {
  const set = D.sets[get("set").value - 1];
  columns = set ? set[1].slice().sort((a, b) => a - b) : [...D.channels.keys()];
  get("grid").scrollLeft = get("roll").scrollTop = 0; cell = [cell[0], Math.min(cell[1], FIXED.length)];
  layOut(); drawGrid(true); drawRoll();
}

function scale(factor) { zoom = Math.max(1, Math.min(64, zoom * factor)); drawRoll(); const x = across(axis[at]); get("roll").scrollLeft += x - width() / 2; drawRoll(); }

function pageKey(event) {
  if (event.altKey || event.ctrlKey || event.metaKey) return;
  const on = event.target.tagName;
  if (event.key === " " && on !== "BUTTON" && on !== "SELECT") { event.preventDefault(); play(); }
  if (on === "INPUT" || on === "SELECT" || !["ArrowLeft", "ArrowRight"].includes(event.key)) return;
  event.preventDefault(); show(at + (event.key === "ArrowLeft" ? -1 : 1));
}

function listen() {
  const once = draw => { let asked = 0; return () => { if (!asked) asked = requestAnimationFrame(() => { asked = 0; draw(); }); }; };
  get("at").max = M - 1;
  get("at").oninput = event => show(+event.target.value);
  get("play").onclick = play; get("before").onclick = () => step(-1); get("after").onclick = () => step(1);
  get("set").onchange = choose; get("in").onclick = () => scale(2); get("out").onclick = () => scale(.5);
  get("grid").onscroll = once(() => drawGrid()); get("roll").onscroll = once(drawRoll);
  get("grid").onkeydown = gridKey; get("grid").onfocus = get("grid").onblur = activate;
  get("grid").onpointerdown = event => { const to = /^g(\d+)-(\d+)$/.exec(event.target.closest("[id^=g]")?.id || ""); if (to) setTimeout(() => moveTo(+to[1], +to[2])); };
  get("strips").onpointerdown = get("strips").onpointermove = event => { if (event.buttons && event.offsetX > GUTTER - 6) show(momentAt(event.offsetX)); };
  document.onkeydown = pageKey;
  document.onclick = event => { const to = event.target.dataset?.moment; if (to !== undefined) { show(+to); event.target.blur(); } };
  onresize = once(() => { drawGrid(true); drawRoll(); }); onbeforeprint = printed; onafterprint = afterPrint;
  matchMedia("(prefers-color-scheme: dark)").addEventListener("change", drawRoll);
}

async function begin() {
  [rows, moves, frames] = await Promise.all([unpack(D.rows, C), unpack(D.moves, C), unpack(D.frames, C)]);
  layAxis(); about(); layOut(); listen(); drawGrid(true); drawRoll(); listScript();
  show(Math.min(M - 1, +location.hash.slice(1) || 0));
  document.documentElement.dataset.ready = Math.round(performance.now());
}
begin();
