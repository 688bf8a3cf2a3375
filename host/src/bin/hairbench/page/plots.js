// Plots of energy and iterations over the ticks, with a line at the present one.
const PLOT = { wide: 1280, high: 176, left: 76, right: 14, top: 28, foot: 28 };

function across(tick) {
  const last = Math.max(DATA.ticks - 1, 1);
  return PLOT.left + (PLOT.wide - PLOT.left - PLOT.right) * tick / last;
}

// A scale of decades where the values span more than three, else from 0 up: no energy and no count is below 0.
function upward(values) {
  const most = values.reduce((a, b) => Math.max(a, b), 0);
  const least = values.reduce((a, b) => b > 0 ? Math.min(a, b) : a, most);
  const high = PLOT.high - PLOT.top - PLOT.foot, base = PLOT.high - PLOT.foot;
  if (most > 0 && most / least > 1000) {
    const top = Math.ceil(Math.log10(most)), low = Math.max(Math.floor(Math.log10(least)), top - 12);
    const up = v => (Math.max(Math.log10(Math.max(v, 1e-300)), low) - low) / (top - low);
    const stride = Math.ceil((top - low) / 4), marks = [];
    for (let k = low; k <= top; k += stride) marks.push([Math.pow(10, k), "1e" + k]);
    return { at: v => base - high * up(v), marks };
  }
  const stride = most > 0 ? roundLength(most / 2) : 1, marks = [];
  for (let k = 0; k * stride <= most * 1.001 || k < 2; k++) marks.push([k * stride, short(k * stride)]);
  const top = Math.max(most, marks[marks.length - 1][0]);
  return { at: v => base - high * v / top, marks };
}

function plot(parent, title, field) {
  PLOT.wide = Math.max(parent.clientWidth, 420);
  const svg = element("svg", { viewBox: `0 0 ${PLOT.wide} ${PLOT.high}`, role: "img", "aria-label": title }, null);
  parent.appendChild(svg);
  label(svg, PLOT.left, 16, "start", title + (DATA.seats.length > 1 ? ", in the colour of the seat" : ""), true);
  const stays = DATA.seats.flatMap(seat => seat.stays.map(stay => ({ stay, colour: COLOURS[seat.seat] })));
  const scale = upward(stays.flatMap(s => s.stay[field]).filter(v => v !== null));
  const base = PLOT.high - PLOT.foot, end = PLOT.wide - PLOT.right;
  for (const [value, text] of scale.marks) {
    const y = scale.at(value);
    element("line", { x1: PLOT.left, x2: end, y1: y, y2: y, class: "grid" }, svg);
    label(svg, PLOT.left - 8, y + 4.5, "end", text);
  }
  for (const [tick] of DATA.parts) element("line", { x1: across(tick), x2: across(tick), y1: PLOT.top, y2: base, class: "part" }, svg);
  element("line", { x1: PLOT.left, x2: end, y1: base, y2: base, class: "axis" }, svg);
  const stride = Math.max(1, roundLength(DATA.ticks / 6));
  for (let tick = 0; tick < DATA.ticks; tick += stride) label(svg, across(tick), PLOT.high - 7, "middle", tick);
  label(svg, PLOT.left - 8, PLOT.high - 7, "end", "step");
  for (const { stay, colour } of stays) curve(svg, stay, field, scale, colour);
  const line = element("line", { y1: PLOT.top - 4, y2: base, class: "mark" }, svg), dots = element("g", {}, svg);
  svg.addEventListener("click", event => {
    const spot = (event.clientX - svg.getBoundingClientRect().left) * PLOT.wide / svg.getBoundingClientRect().width;
    go(Math.round((spot - PLOT.left) / (end - PLOT.left) * (DATA.ticks - 1)));
  });
  return tick => {
    line.setAttribute("x1", across(tick));
    line.setAttribute("x2", across(tick));
    dots.replaceChildren();
    for (const { stay, colour } of stays) {
      const frame = stay.frame(tick);
      if (frame < 0 || stay.at[frame] !== tick || stay[field][frame] === null) continue;
      element("circle", { cx: across(tick), cy: scale.at(stay[field][frame]), r: 4, fill: colour, stroke: "#fff" }, dots);
    }
  };
}

// A line through ticks that follow each other, a dot where one stands alone.
function curve(svg, stay, field, scale, colour) {
  let path = "";
  stay.at.forEach((tick, k) => {
    if (stay[field][k] === null) return;
    const joined = k > 0 && stay[field][k - 1] !== null && stay.at[k - 1] === tick - 1;
    path += `${joined ? "L" : "M"}${across(tick).toFixed(1)} ${scale.at(stay[field][k]).toFixed(1)}${joined ? "" : "h0"}`;
  });
  element("path", { d: path, class: "curve", stroke: colour, "stroke-linecap": "round" }, svg);
}
