// Strands: frames unpacked, and drawn from the front and from the side.
const COLOURS = ["#0067a5", "#b83b00", "#00745a", "#9c3f88", "#6f5500", "#4a4f57"];
const SPACE = "http://www.w3.org/2000/svg";

function element(name, attributes, parent) {
  const made = document.createElementNS(SPACE, name);
  for (const key in attributes) made.setAttribute(key, attributes[key]);
  if (parent) parent.appendChild(made);
  return made;
}

function label(parent, x, y, anchor, text, strong) {
  const made = element("text", { x, y, "text-anchor": anchor, class: strong ? "strong" : "" }, parent);
  made.textContent = text;
  return made;
}

function short(x) {
  if (x === null || x === 0) return "0";
  const size = Math.abs(x);
  return size >= 1e-3 && size < 1e5 ? String(Number(x.toPrecision(4))) : x.toExponential(2);
}

// The frames' numbers: differences in seven bits a byte, the sign lowest.
function unpack(stay) {
  const bytes = atob(stay.frames);
  const wide = 3 * stay.n, frames = stay.energy.length;
  const numbers = new Float64Array(wide * frames);
  let at = 0;
  for (let k = 0; k < wide * frames; k++) {
    let word = 0, factor = 1, byte;
    do {
      byte = bytes.charCodeAt(at++);
      word += (byte & 127) * factor;
      factor *= 128;
    } while (byte > 127);
    const step = word % 2 ? -(word + 1) / 2 : word / 2;
    numbers[k] = step + (k < wide ? 0 : numbers[k - wide]);
  }
  return numbers.map((x, k) => stay.corner[k % 3] + stay.part * x);
}

// The last entry of a list of [frame, value] that holds at a frame.
function holding(changes, frame) {
  let value = null;
  for (const [from, held] of changes) if (from <= frame) value = held;
  return value;
}

function prepare(stay) {
  stay.numbers = unpack(stay);
  stay.at = stay.ticks.flatMap(([first, length]) => Array.from({ length }, (_, k) => first + k));
  stay.frame = tick => {
    if (tick < stay.at[0] || (stay.end !== null && tick >= stay.end)) return -1;
    let low = 0, high = stay.at.length;
    while (high - low > 1) {
      const middle = (low + high) >> 1;
      if (stay.at[middle] <= tick) low = middle; else high = middle;
    }
    return low;
  };
  stay.points = frame => Array.from({ length: stay.n }, (_, v) => {
    const from = 3 * (stay.n * frame + v);
    return [stay.numbers[from], stay.numbers[from + 1], stay.numbers[from + 2]];
  });
}

function roundLength(most) {
  const ten = Math.pow(10, Math.floor(Math.log10(most)));
  return ten * ([5, 2, 1].find(k => k * ten <= most) || 1);
}

let clips = 0;

// One of the two panels of a seat; its `show` draws a frame of a stay, or nothing.
function panel(svg, left, size, name, axis, room, scale) {
  const [wide, high] = size;
  element("rect", { x: left + 0.5, y: 0.5, width: wide - 1, height: high - 1, rx: 4, class: "panel" }, svg);
  label(svg, left + 8, 17, "start", name);
  label(svg, left + wide - 8, 17, "end", (axis ? "z" : "x") + " \u2192  y \u2191");
  const inside = `inside-${axis}-${clips++}`;
  element("rect", { x: left, y: 0, width: wide, height: high }, element("clipPath", { id: inside }, svg));
  const group = element("g", { "clip-path": `url(#${inside})` }, svg);
  const middle = k => (room[k] + room[k + 3]) / 2;
  const spot = p => [left + wide / 2 + (p[axis] - middle(axis)) * scale, 22 + (high - 48) / 2 - (p[1] - middle(1)) * scale];
  const joined = spots => spots.map(s => s[0].toFixed(1) + "," + s[1].toFixed(1)).join(" ");
  return (stay, frame) => {
    group.replaceChildren();
    if (!stay || frame < 0) return;
    const drape = stay.points(frame).map(spot), pick = holding(stay.picks, frame), pins = holding(stay.pins, frame);
    element("polyline", { points: joined(stay.points(0).map(spot)), class: "rest-line" }, group);
    const goal = pick && spot(pick.slice(1)), held = pick && drape[pick[0]];
    if (pick) element("line", { x1: held[0], y1: held[1], x2: goal[0], y2: goal[1], class: "pick-line" }, group);
    element("polyline", { points: joined(drape), class: "drape-line" }, group);
    element("path", { d: drape.map(s => `M${s[0].toFixed(1)} ${s[1].toFixed(1)}h0`).join(""), class: "vertices" }, group);
    element("circle", { cx: drape[0][0], cy: drape[0][1], r: 5, class: "root-dot" }, group);
    drape.forEach(([x, y], v) => {
      const bits = parseInt(pins[v], 16);
      if (bits & 8) element("path", { d: `M${x - 9} ${y}l9 -9l9 9l-9 9z`, class: "twist-mark" }, group);
      if (bits & 7) element("rect", { x: x - 4, y: y - 4, width: 8, height: 8, class: "pin-mark" }, group);
    });
    if (!pick) return;
    element("path", { d: `M${goal[0] - 5} ${goal[1] - 5}l10 10m0 -10l-10 10`, class: "pick-goal" }, group);
    element("circle", { cx: held[0], cy: held[1], r: 6, class: "pick-ring" }, group);
  };
}

// A seat's article; what it returns shows a tick.
function seatView(seat, parent, large) {
  const article = document.createElement("article");
  article.style.setProperty("--own", COLOURS[seat.seat]);
  article.innerHTML = "<h2><b></b><small></small></h2>";
  article.querySelector("b").textContent = "Seat " + seat.seat;
  const small = article.querySelector("small"), numbers = document.createElement("p");
  const size = large ? [430, 400] : [200, 240], gap = 8;
  const svg = element("svg", { viewBox: `0 0 ${2 * size[0] + gap} ${size[1]}`, role: "img" }, article);
  article.appendChild(numbers);
  parent.appendChild(article);
  const room = seat.room || [0, 0, 0, 1, 1, 1], fits = [size[0] - 32, size[1] - 80, size[0] - 32];
  const scale = Math.min(...fits.map((f, k) => f / Math.max(room[k + 3] - room[k], 1e-300)), 1e12);
  const shows = [["front", 0], ["side", 2]].map(([name, axis], k) => panel(svg, k * (size[0] + gap), size, name, axis, room, scale));
  const bar = element("g", {}, svg);
  if (seat.room) {
    const length = roundLength(size[0] * 0.45 / scale), end = 10 + length * scale, y = size[1] - 10;
    element("path", { d: `M10 ${y - 4}v8m0 -4H${end}m0 -4v8`, class: "bar" }, bar);
    label(bar, end + 8, y + 4.5, "start", short(length) + " " + DATA.unit, true);
  }
  return tick => {
    const stay = seat.stays.find(s => s.frame(tick) >= 0), frame = stay ? stay.frame(tick) : -1;
    shows.forEach(show => show(stay, frame));
    bar.setAttribute("visibility", stay ? "visible" : "hidden");
    small.textContent = stay ? `${stay.n} vertices, step ${frame}` : "empty";
    numbers.textContent = !stay ? "" : stay.energy[frame] === null ? "as loaded"
      : `energy ${short(stay.energy[frame])} \u00b7 ${stay.count[frame]} iterations \u00b7 moved ${short(stay.moved[frame])} ${DATA.unit}`;
  };
}
