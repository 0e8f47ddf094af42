// Draws the data of the page on a canvas. Places are in units of the axis; `view` is the part that is shown.

const data = JSON.parse(document.getElementById("data").textContent);
const canvas = document.getElementById("canvas"), pen = canvas.getContext("2d"), tip = document.getElementById("tip");
const LEFT = 96, RIGHT = 20, TOP = 90, WAITING = 34, GAP = 12, AXIS = 40, FONT = '"DejaVu Sans", Verdana, sans-serif';
const MOST_ARROWS = 120, RED = "#c81e1e", GREY = "#555b66";
const lanesInAll = data.heights.reduce((sum, high) => sum + high, 0);
const BAR = Math.max(4, Math.min(17, Math.floor(1400 / lanesInAll)));

// Sums up a column of differences.
function risen(column) {
  let sum = 0;
  return column.map(step => (sum += step));
}

const bars = data.bars, runs = data.runs, blocks = data.blocks;
for (const name of ["row", "job", "begin", "made", "started"]) bars[name] = risen(bars[name]);
runs.bar = risen(runs.bar);
for (const name of ["begin", "first"]) blocks[name] = risen(blocks[name]);

const jobs = new Map(data.jobs.map(([number, outcome, work]) => [number, {outcome, work}]));
const key = (slot, height) => slot * 256 + height;

// The lanes: for each slot and height its bars and blocks, by their begin. The runs of a bar stand together.
const lanes = new Map();
function lane(slot, height) {
  if (!lanes.has(key(slot, height))) lanes.set(key(slot, height), {bars: [], blocks: []});
  return lanes.get(key(slot, height));
}
bars.row.forEach((_, at) => lane(bars.slot[at], bars.height[at]).bars.push(at));
blocks.slot.forEach((_, at) => lane(blocks.slot[at], blocks.height[at]).blocks.push(at));
const firstRun = new Int32Array(bars.row.length + 1);
for (const bar of runs.bar) firstRun[bar + 1]++;
for (let at = 0; at < bars.row.length; at++) firstRun[at + 1] += firstRun[at];

const bases = [];
let bottom = TOP;
for (const high of data.heights) bases.push(bottom += high * BAR + (bases.length ? GAP : 0));

const view = {begin: data.begin, end: data.end};
let width = 0, marked = [], shown = -1;

const written = number => number.toLocaleString("en");
const x = at => LEFT + (at - view.begin) * (width - LEFT - RIGHT) / (view.end - view.begin);
const place = px => view.begin + (px - LEFT) * (view.end - view.begin) / (width - LEFT - RIGHT);
const top = (slot, height) => bases[slot] - height * BAR;
const colour = at => data.palette[(data.byProc ? bars.proc[at] : bars.job[at] - 1) % data.palette.length];

// The first of some items, sorted by begin, that ends after a place.
function firstAfter(items, column, at) {
  let low = 0, high = items.length;
  while (low < high) {
    const middle = (low + high) >> 1;
    if (column.begin[items[middle]] + column.length[items[middle]] < at) low = middle + 1; else high = middle;
  }
  return low;
}

function visible(items, column, draw) {
  for (let i = firstAfter(items, column, view.begin); i < items.length; i++) {
    if (column.begin[items[i]] > view.end) return;
    draw(items[i]);
  }
}

function box(begin, length) {
  const left = Math.max(x(begin), LEFT), right = Math.min(x(begin + length), width - RIGHT);
  return {left, wide: Math.max(right - left, 0.8)};
}

function drawBar(at) {
  const {left, wide} = box(bars.begin[at], bars.length[at]), y = top(bars.slot[at], bars.height[at]);
  const isRegion = data.kinds[bars.kind[at]] === "region", isFaulted = data.states[bars.state[at]] === "faulted";
  pen.fillStyle = colour(at);
  pen.globalAlpha = isRegion ? 0.12 : 0.25;
  pen.fillRect(left, y + 0.5, wide, BAR - 1.5);
  pen.globalAlpha = 1;
  for (let run = firstRun[at]; run < firstRun[at + 1]; run++) {
    const begin = bars.begin[at] + runs.begin[run];
    if (begin > view.end || begin + runs.length[run] < view.begin) continue;
    const part = box(begin, runs.length[run]);
    pen.fillRect(part.left, y + 2, part.wide, BAR - 4.5);
  }
  if (wide > 3) {
    pen.strokeStyle = isFaulted ? RED : colour(at);
    pen.lineWidth = isRegion || isFaulted ? 1.4 : 0.5;
    pen.setLineDash(isRegion ? [4, 2] : []);
    pen.strokeRect(left, y + 0.5, wide, BAR - 1.5);
    pen.setLineDash([]);
  }
  if (BAR >= 12) label([`${data.names[bars.name[at]]} · row ${bars.row[at]}`, `${bars.row[at]}`], left, y, wide);
}

// Puts the first of some texts that fits into a box.
function label(texts, left, y, wide) {
  pen.font = `9px ${FONT}`;
  for (const text of texts) {
    if (pen.measureText(text).width + 8 > wide) continue;
    pen.lineWidth = 2.4;
    pen.strokeStyle = "white";
    pen.strokeText(text, left + 4, y + BAR - 5);
    pen.fillStyle = "#111";
    pen.fillText(text, left + 4, y + BAR - 5);
    return;
  }
}

function drawBlock(at) {
  const {left, wide} = box(blocks.begin[at], blocks.length[at]), y = top(blocks.slot[at], blocks.height[at]);
  pen.fillStyle = blocks.job[at] && !data.byProc ? data.palette[(blocks.job[at] - 1) % data.palette.length] : "#8a919c";
  pen.globalAlpha = 0.7;
  pen.fillRect(left, y + 1, wide, BAR - 2);
  pen.globalAlpha = 1;
  if (BAR >= 12) label([`${blocks.rows[at]} rows`], left, y, wide);
}

function step(length, room) {
  const wanted = Math.max(length * 90 / room, 1), power = 10 ** Math.floor(Math.log10(wanted));
  return [1, 2, 5, 10].map(it => it * power).find(it => it >= wanted);
}

function drawAxis() {
  const every = step(view.end - view.begin, width - LEFT - RIGHT);
  pen.font = `10px ${FONT}`;
  pen.textAlign = "center";
  for (let at = Math.ceil(view.begin / every) * every; at <= view.end; at += every) {
    pen.fillStyle = "#d0d4da";
    pen.fillRect(x(at), TOP - WAITING - 12, 0.7, bottom - TOP + WAITING + 18);
    pen.fillStyle = GREY;
    pen.fillText(written(at), x(at), bottom + 20);
  }
  pen.textAlign = "left";
  pen.fillText(data.axis, LEFT, bottom + 35);
}

function drawMarks(isCancel, y) {
  pen.font = `9px ${FONT}`;
  pen.fillStyle = isCancel ? RED : GREY;
  const all = data.marks.filter(it => it[3] === isCancel && it[0] >= view.begin && it[0] <= view.end);
  all.forEach(([at, , text, , count], i) => {
    if (i && x(at) - x(all[i - 1][0]) < 0.7) return;
    pen.fillRect(x(at), y - 10, 1.2, 13);
    const shownText = count > 1 ? `${count} requests` : text;
    const room = (i + 1 < all.length ? x(all[i + 1][0]) : width - 2) - x(at);
    if (pen.measureText(shownText).width + 8 < room) pen.fillText(shownText, x(at) + 4, y);
  });
}

// How many rows wait, as an area.
function drawWaiting() {
  const low = TOP - 10, most = data.waiting.reduce((greatest, it) => Math.max(greatest, it[1]), 1);
  pen.fillStyle = "#e9cd94";
  data.waiting.forEach(([at, rows], i) => {
    const until = i + 1 < data.waiting.length ? data.waiting[i + 1][0] : data.end;
    if (until < view.begin || at > view.end || !rows) return;
    const {left, wide} = box(at, until - at), high = WAITING * rows / most;
    pen.fillRect(left, low - high, wide, high);
  });
  pen.fillStyle = GREY;
  pen.font = `9px ${FONT}`;
  pen.textAlign = "right";
  pen.fillText(`most ${written(most)}`, LEFT - 8, low);
  pen.textAlign = "left";
}

// Arrows, unless there are too many to tell apart.
function drawArrows() {
  const taken = [];
  pen.strokeStyle = pen.fillStyle = GREY;
  pen.lineWidth = 0.8;
  for (let at = 0; at < bars.row.length; at++) {
    const made = bars.begin[at] - bars.waited[at];
    if (bars.maker[at] < 0 || bars.madeOn[at] < 0 || bars.madeOn[at] === bars.slot[at]) continue;
    if (made >= view.begin && bars.begin[at] <= view.end) taken.push(at);
  }
  const areFew = taken.length <= MOST_ARROWS;
  document.getElementById("arrows").textContent = areFew ? "" : `zoom in to see ${taken.length} arrows`;
  for (const at of areFew ? taken : []) {
    const maker = bars.maker[at], made = bars.begin[at] - bars.waited[at];
    const x0 = x(made), y0 = top(bars.slot[maker], bars.height[maker]) + BAR / 2;
    const x1 = x(bars.begin[at]), y1 = top(bars.slot[at], bars.height[at]) + BAR / 2;
    const turn = Math.atan2(y1 - y0, x1 - x0);
    pen.beginPath();
    pen.moveTo(x0, y0);
    pen.lineTo(x1, y1);
    pen.stroke();
    pen.beginPath();
    pen.moveTo(x1, y1);
    pen.lineTo(x1 - 6 * Math.cos(turn - 0.45), y1 - 6 * Math.sin(turn - 0.45));
    pen.lineTo(x1 - 6 * Math.cos(turn + 0.45), y1 - 6 * Math.sin(turn + 0.45));
    pen.fill();
  }
}

function draw() {
  const scale = window.devicePixelRatio || 1, height = bottom + AXIS;
  width = document.documentElement.clientWidth;
  canvas.width = width * scale;
  canvas.height = height * scale;
  canvas.style.width = `${width}px`;
  canvas.style.height = `${height}px`;
  pen.setTransform(scale, 0, 0, scale, 0, 0);
  pen.fillStyle = "white";
  pen.fillRect(0, 0, width, height);
  data.heights.forEach((high, slot) => {
    pen.fillStyle = "#f5f6f8";
    pen.fillRect(LEFT, bases[slot] - high * BAR, width - LEFT - RIGHT, high * BAR);
  });
  drawAxis();
  drawWaiting();
  for (const it of lanes.values()) {
    visible(it.blocks, blocks, drawBlock);
    visible(it.bars, bars, drawBar);
  }
  drawArrows();
  drawMarks(false, 14);
  drawMarks(true, 32);
  drawFound();
  pen.font = `11px ${FONT}`;
  pen.textAlign = "right";
  pen.fillStyle = "#222";
  const nameOf = slot => `slot ${slot}${slot < data.reserved ? " (res.)" : ""}`;
  bases.forEach((base, slot) => pen.fillText(nameOf(slot), LEFT - 8, base - 4));
  pen.fillText("waiting", LEFT - 8, TOP - WAITING);
  pen.fillText("requests", LEFT - 8, 14);
  pen.fillStyle = RED;
  pen.fillText("cancels", LEFT - 8, 32);
  pen.textAlign = "left";
  document.getElementById("range").textContent =
    `${written(Math.floor(view.begin))} to ${written(Math.ceil(view.end))} of ${written(data.end)}`;
}

function drawFound() {
  pen.strokeStyle = "#111";
  pen.lineWidth = 2;
  for (const it of marked) {
    const column = it.isBlock ? blocks : bars, begin = column.begin[it.at], length = column.length[it.at];
    if (begin > view.end || begin + length < view.begin) continue;
    const {left, wide} = box(begin, length);
    pen.strokeRect(left - 1, top(column.slot[it.at], column.height[it.at]) - 0.5, wide + 2, BAR);
  }
}

// Moving and zooming.

function show(begin, end) {
  const whole = data.end - data.begin, length = Math.min(Math.max(end - begin, whole / 1e7, 0.5), whole);
  const middle = (begin + end) / 2;
  view.begin = Math.min(Math.max(middle - length / 2, data.begin), data.end - length);
  view.end = view.begin + length;
  draw();
}

function zoom(factor, px) {
  const at = px === undefined ? (view.begin + view.end) / 2 : place(px), length = (view.end - view.begin) * factor;
  const share = (at - view.begin) / (view.end - view.begin);
  show(at - share * length, at + (1 - share) * length);
}

const move = share => show(view.begin + share * (view.end - view.begin), view.end + share * (view.end - view.begin));
const showAll = () => show(data.begin, data.end);

canvas.addEventListener("wheel", event => {
  event.preventDefault();
  zoom(Math.exp(event.deltaY / 400), event.offsetX);
}, {passive: false});
let held = null;
canvas.addEventListener("pointerdown", event => {
  held = {px: event.offsetX, begin: view.begin, end: view.end};
  canvas.setPointerCapture(event.pointerId);
});
canvas.addEventListener("pointerup", () => { held = null; });
canvas.addEventListener("pointermove", event => {
  if (!held) return hover(event);
  tip.hidden = true;
  const by = (held.px - event.offsetX) * (held.end - held.begin) / (width - LEFT - RIGHT);
  show(held.begin + by, held.end + by);
});
canvas.addEventListener("pointerleave", () => { tip.hidden = true; });
document.getElementById("in").addEventListener("click", () => zoom(0.5));
document.getElementById("out").addEventListener("click", () => zoom(2));
document.getElementById("all").addEventListener("click", showAll);
document.addEventListener("keydown", event => {
  if (event.target.tagName === "INPUT") return;
  const does = {"+": () => zoom(0.5), "=": () => zoom(0.5), "-": () => zoom(2), "0": showAll,
                ArrowLeft: () => move(-0.2), ArrowRight: () => move(0.2)}[event.key];
  if (does) {
    event.preventDefault();
    does();
  }
});
window.addEventListener("resize", draw);

// What a row did.

function wordsOfBar(at, where) {
  const on = bars.madeOn[at] >= 0 && bars.madeOn[at] !== bars.slot[at] ? ` on slot ${bars.madeOn[at]}` : "";
  const by = bars.maker[at] >= 0 ? ` by row ${bars.row[bars.maker[at]]}` : "";
  const state = data.states[bars.state[at]], value = state === "returned" ? ` ${bars.value[at]}` : "";
  const until = bars.ended[at] >= 0 ? `to ${bars.started[at] + bars.ended[at]}` : "to the end";
  const job = jobs.get(bars.job[at]);
  const lines = [`row ${bars.row[at]}: ${data.kinds[bars.kind[at]]} ${data.names[bars.name[at]]}, ${state}${value}`,
                 `job ${bars.job[at]}: ${job.outcome}; ${written(job.work)} instructions in all`,
                 `made in entry ${bars.made[at]}${by}${on}; entries ${bars.started[at]} ${until}`,
                 `${written(bars.cost[at])} instructions on slot ${bars.slot[at]}, height ${bars.height[at]}`];
  for (let run = firstRun[at]; run < firstRun[at + 1]; run++) {
    const begin = bars.begin[at] + runs.begin[run], cost = runs.cost[run] || runs.length[run];
    if (where < begin || where > begin + runs.length[run]) continue;
    const then = runs.then[run] ? `, at last ${runs.then[run]}` : "";
    const entry = bars.started[at] + runs.entry[run];
    lines.push(runs.count[run] > 1 ? `from entry ${entry}: ${runs.count[run]} runs, ${cost} instructions`
                                   : `entry ${entry}: ${cost} instructions${then}`);
    break;
  }
  return lines.join("\n");
}

function wordsOfBlock(at) {
  const whose = blocks.job[at] ? `of job ${blocks.job[at]}` : "of several jobs";
  const last = blocks.first[at] + blocks.last[at];
  return `${blocks.rows[at]} rows ${whose}, merged: numbers from ${blocks.first[at]} to ${last}\n` +
         `${written(blocks.cost[at])} instructions`;
}

// The text for a place of the canvas, or nothing.
function wordsAt(px, py) {
  const at = place(px), slack = (view.end - view.begin) / (width - LEFT - RIGHT);
  const slot = bases.findIndex((base, it) => py <= base && py > base - data.heights[it] * BAR);
  if (py < 36) return wordsOfMark(px, py);
  if (slot < 0 || px < LEFT) return py < TOP - 8 && px >= LEFT ? wordsOfWaiting(at) : "";
  const it = lanes.get(key(slot, Math.ceil((bases[slot] - py) / BAR)));
  if (!it) return "";
  const hit = (items, column) => {
    const found = items[firstAfter(items, column, at - slack)];
    return found !== undefined && column.begin[found] <= at + slack ? found : undefined;
  };
  const bar = hit(it.bars, bars), block = bar === undefined ? hit(it.blocks, blocks) : undefined;
  return bar !== undefined ? wordsOfBar(bar, at) : block !== undefined ? wordsOfBlock(block) : "";
}

function wordsOfWaiting(at) {
  const rows = data.waiting.reduce((now, [from, count]) => (from <= at ? count : now), 0);
  return rows ? `${rows} row${rows === 1 ? " waits" : "s wait"} here` : "";
}

function wordsOfMark(px, py) {
  const near = data.marks.find(it => it[3] === py > 20 && Math.abs(x(it[0]) - px) < 4);
  return near ? (near[4] > 1 ? `${near[4]} requests from entry ${near[1]}` : `entry ${near[1]}: ${near[2]}`) : "";
}

function hover(event) {
  const text = wordsAt(event.offsetX, event.offsetY);
  tip.hidden = !text;
  tip.textContent = text;
  tip.style.left = `${Math.min(event.clientX + 14, window.innerWidth - 480)}px`;
  tip.style.top = `${Math.min(event.clientY + 14, window.innerHeight - 110)}px`;
}

// Finding.

function findAll(text) {
  const words = text.trim().toLowerCase(), number = Number(words.replace(/^(row|job)\s*/, ""));
  if (!words) return [];
  const of = (test, blockTest) => [
    ...bars.row.flatMap((_, at) => test(at) ? [{at, isBlock: false}] : []),
    ...blocks.rows.flatMap((_, at) => blockTest && blockTest(at) ? [{at, isBlock: true}] : [])];
  if (words.startsWith("job")) return of(at => bars.job[at] === number, at => blocks.job[at] === number);
  if (Number.isInteger(number)) {
    const exact = of(at => bars.row[at] === number);
    const holds = at => blocks.first[at] <= number && number <= blocks.first[at] + blocks.last[at];
    return exact.length ? exact : of(() => false, holds);
  }
  return of(at => data.names[bars.name[at]].toLowerCase() === words);
}

function find(text) {
  marked = findAll(text);
  shown = -1;
  const words = marked.length === 0 ? (text.trim() ? "nothing found" : "") : "";
  document.getElementById("found").textContent = words;
  if (!marked.length) return draw();
  if (text.trim().toLowerCase().startsWith("job")) {
    let begin = Infinity, end = -Infinity;
    for (const it of marked) {
      const column = it.isBlock ? blocks : bars;
      begin = Math.min(begin, column.begin[it.at]);
      end = Math.max(end, column.begin[it.at] + column.length[it.at]);
    }
    show(begin - (end - begin) / 20, end + (end - begin) / 20);
    document.getElementById("found").textContent = `${marked.length} of ${text.trim()}`;
  } else next();
}

function next() {
  if (!marked.length) return;
  shown = (shown + 1) % marked.length;
  const it = marked[shown], column = it.isBlock ? blocks : bars;
  const length = Math.max(column.length[it.at], (data.end - data.begin) / 1e6, 1);
  show(column.begin[it.at] - length, column.begin[it.at] + 2 * length);
  const where = it.isBlock ? "perhaps in this block: " + wordsOfBlock(it.at) : wordsOfBar(it.at, -1);
  document.getElementById("found").textContent = `${shown + 1} of ${marked.length}: ${where.split("\n")[0]}`;
}

document.getElementById("find").addEventListener("input", event => find(event.target.value));
document.getElementById("controls").addEventListener("submit", event => {
  event.preventDefault();
  next();
});

function legend() {
  const list = document.getElementById("legend");
  const ofProcedure = (name, at) => [name, `procedure ${name}`, bars.proc[bars.name.indexOf(at)]];
  const ofJob = ([number, outcome]) => [`job ${number}`, `job ${number}: ${outcome}`, number - 1];
  const all = data.byProc ? data.names.map(ofProcedure) : data.jobs.map(ofJob);
  for (const [words, text, at] of all.slice(0, 400)) {
    const item = document.createElement("li"), swatch = document.createElement("i");
    swatch.style.background = data.palette[at % data.palette.length];
    item.append(swatch, text);
    item.addEventListener("click", () => {
      document.getElementById("find").value = words;
      find(words);
    });
    list.append(item);
  }
  if (all.length > 400) list.append(`and ${all.length - 400} more`);
}

legend();
draw();
