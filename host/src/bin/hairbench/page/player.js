// Playing: the present tick, its controls and keys. The address may name a tick, as in #step=12.
for (const seat of DATA.seats) seat.stays.forEach(prepare);
const byId = id => document.getElementById(id);
const large = DATA.seats.length === 1;
if (large) byId("seats").className = "one";
const views = DATA.seats.map(seat => seatView(seat, byId("seats"), large));
const energy = plot(byId("plots"), "energy at the start of the step", "energy");
const iterations = plot(byId("plots"), "iterations of the solve", "count");
const last = Math.max(DATA.ticks - 1, 0);
let present = 0, timer = null;

function go(tick) {
  present = Math.min(Math.max(tick, 0), last);
  views.forEach(view => view(present));
  energy(present);
  iterations(present);
  byId("slider").value = present;
  byId("count").textContent = `step ${present} of ${last}`;
  const part = DATA.parts.filter(p => p[0] <= present).pop();
  byId("now").textContent = "";
  if (part) {
    byId("now").append(`line ${part[1]}: `, Object.assign(document.createElement("code"), { textContent: part[2] }));
  }
}

function pause() {
  clearInterval(timer);
  timer = null;
  byId("play").textContent = "Play";
}

function play() {
  if (present === last) go(0);
  byId("play").textContent = "Pause";
  timer = setInterval(() => present < last ? go(present + 1) : pause(), 1000 / Number(byId("speed").value));
}

function halted(tick) {
  pause();
  go(tick);
}

byId("slider").max = last;
byId("slider").addEventListener("input", event => halted(Number(event.target.value)));
byId("play").addEventListener("click", () => timer ? pause() : play());
byId("first").addEventListener("click", () => halted(0));
byId("back").addEventListener("click", () => halted(present - 1));
byId("on").addEventListener("click", () => halted(present + 1));
byId("last").addEventListener("click", () => halted(last));
byId("speed").addEventListener("change", () => { if (timer) { pause(); play(); } });

const KEYS = { ArrowLeft: () => halted(present - 1), ArrowRight: () => halted(present + 1), Home: () => halted(0), End: () => halted(last) };
document.addEventListener("keydown", event => {
  if (event.ctrlKey || event.altKey || event.metaKey || event.target.tagName === "SELECT") return;
  const act = event.key === " " ? () => timer ? pause() : play() : KEYS[event.key];
  if (!act) return;
  event.preventDefault();
  act();
});

function named() {
  const found = /step=(\d+)/.exec(location.hash);
  go(found ? Number(found[1]) : 0);
}
window.addEventListener("hashchange", named);
named();
