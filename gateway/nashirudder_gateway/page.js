"use strict";
const $ = id => document.getElementById(id);
const MOST_LINES = 60, MOST_ROBOTS = 12, TICK_MS = 50, LOOK_MS = 500, SOON_MS = 100, LEAST_LABEL = 11, TOUCH = 16;

let token = new URLSearchParams(location.hash.slice(1)).get("token") || sessionStorage.getItem("token") || "";
let site = null, robots = [], chosen = null, arrivals = 0, socket = null, lost = 0;
let timer = 0, isSoon = false;
let from = [], cells = [], movedAt = 0, every = 100, size = 8, walls = null, colours = {};

// ---- what the page says

function state(name, text) {
  document.body.dataset.state = name;
  $("state").textContent = text;
}

function log(text) {
  const line = document.createElement("li");
  line.textContent = text;
  $("log").prepend(line);
  while ($("log").childElementCount > MOST_LINES) $("log").lastChild.remove();
}

function hint(text) { $("hint").textContent = text || (chosen === null ? "Pick a robot, then a cell." : `Robot ${chosen}: pick the cell where it is to go.`); }

function choose(robot) {
  chosen = robot;
  document.body.dataset.chosen = robot === null ? "" : robot;
  hint();
}

function place(cell) { return cell === null ? "" : `${cell % site.width}, ${Math.floor(cell / site.width)}`; }

// ---- the floor

const at = cell => [cell % site.width, Math.floor(cell / site.width)];

function measure() {
  if (!site) return;
  const style = getComputedStyle(document.documentElement), ratio = devicePixelRatio || 1;
  for (const name of ["wall", "free", "busy", "chosen", "eldest", "way", "card"]) colours[name] = style.getPropertyValue("--" + name).trim();
  const isNarrow = innerWidth <= 760, wide = $("floor").clientWidth - 2, high = isNarrow ? innerHeight * .6 : innerHeight - $("map").getBoundingClientRect().top - scrollY - 24;
  size = Math.max(2, Math.min(48, wide / site.width, Math.max(240, high) / site.height));
  const canvas = $("map");
  canvas.style.width = `${size * site.width}px`;
  canvas.style.height = `${size * site.height}px`;
  canvas.width = Math.round(size * site.width * ratio);
  canvas.height = Math.round(size * site.height * ratio);
  walls = document.createElement("canvas");
  walls.width = canvas.width;
  walls.height = canvas.height;
  const pen = walls.getContext("2d");
  pen.fillStyle = colours.wall;
  // whole pixels, so that no seams show
  const left = x => Math.round(x * canvas.width / site.width), top = y => Math.round(y * canvas.height / site.height);
  site.rows.forEach((row, y) => [...row].forEach((letter, x) => {
    if (!".GS".includes(letter)) pen.fillRect(left(x), top(y), left(x + 1) - left(x), top(y + 1) - top(y));
  }));
}

/** Where a robot is drawn now: on its way to its cell from where it was drawn when the last tick came. */
function now(robot, part) {
  const [x, y] = at(cells[robot]), [u, v] = from[robot] ?? [x + .5, y + .5];
  return [u + (x + .5 - u) * part, v + (y + .5 - v) * part];
}

function draw(time) {
  requestAnimationFrame(draw);
  if (!walls || !cells.length) return;
  const canvas = $("map"), pen = canvas.getContext("2d"), scale = canvas.width / site.width, part = Math.min(1, Math.max(0, (time - movedAt) / every));
  pen.setTransform(1, 0, 0, 1, 0, 0);
  pen.clearRect(0, 0, canvas.width, canvas.height);
  pen.drawImage(walls, 0, 0);
  pen.scale(scale, scale);
  for (const it of robots) {
    if (it.goal === null || (robots.length > 64 && !it.eldest && it.robot !== chosen)) continue;
    const [x, y] = now(it.robot, part), [u, v] = at(it.goal);
    pen.strokeStyle = it.eldest ? colours.eldest : it.robot === chosen ? colours.chosen : colours.way;
    pen.lineWidth = .09;
    pen.beginPath();
    pen.moveTo(x, y);
    pen.lineTo(u + .5, v + .5);
    pen.stroke();
    pen.strokeRect(u + .2, v + .2, .6, .6);
  }
  pen.textAlign = "center";
  pen.textBaseline = "middle";
  pen.font = ".5px system-ui, sans-serif";
  cells.forEach((_, robot) => {
    const [x, y] = now(robot, part), it = robots[robot];
    pen.fillStyle = robot === chosen ? colours.chosen : it && it.state === "busy" ? colours.busy : colours.free;
    pen.beginPath();
    pen.arc(x, y, .42, 0, 7);
    pen.fill();
    if (it && it.eldest) {
      pen.strokeStyle = colours.eldest;
      pen.lineWidth = .12;
      pen.stroke();
    }
    if (size >= LEAST_LABEL) {
      pen.fillStyle = colours.card;
      pen.fillText(robot, x, y + .03);
    }
  });
}

function pick(event) {
  if (!site || !cells.length) return;
  const box = $("map").getBoundingClientRect(), x = (event.clientX - box.left) / size, y = (event.clientY - box.top) / size;
  const part = Math.min(1, (performance.now() - movedAt) / every), reach = chosen === null ? Math.max(.6, TOUCH / size) : .5;
  let nearest = null, least = reach;
  cells.forEach((_, robot) => {
    const [u, v] = now(robot, part), far = Math.hypot(u - x, v - y);
    if (far < least) [nearest, least] = [robot, far];
  });
  if (chosen === null || nearest !== null) return choose(nearest === chosen ? null : nearest);
  const cell = Math.floor(y) * site.width + Math.floor(x);
  if (socket && socket.readyState === WebSocket.OPEN) {
    const key = Array.from(crypto.getRandomValues(new Uint8Array(16)), byte => byte.toString(16).padStart(2, "0")).join("");
    socket.send(JSON.stringify({robot: chosen, cell, key}));
    choose(null);
  } else hint("Not sent: the connection is lost.");
}

// ---- what the gateway tells

async function ask(path) {
  const answer = await fetch(path, {headers: token ? {Authorization: `Bearer ${token}`} : {}});
  if (answer.status === 401) throw new Error("token");
  return answer.json();
}

function hear(told) {
  if (told.kind === "tick") {
    const time = performance.now(), part = Math.min(1, (time - movedAt) / every);
    from = cells.map((_, robot) => now(robot, part));
    every = .8 * every + .2 * Math.min(2000, Math.max(TICK_MS, time - movedAt));
    movedAt = time;
    cells = told.cells;
    $("tick").textContent = document.body.dataset.tick = told.tick;
  } else if (told.kind === "arrival") {
    $("arrivals").textContent = ++arrivals;
    soon();
    log(`Robot ${told.errand.robot} arrived at ${place(told.errand.cell)}, tick ${told.errand.tick}`);
  } else if (told.kind === "verdict") {
    const {robot, cell, reason} = told.errand;
    soon();
    log(`Robot ${robot} to ${place(cell)}: ${reason || told.errand.state}`);
    if (reason) hint(`Robot ${robot} cannot be sent there: ${reason}.`);
  } else if (told.kind === "refusal") hint(`Not taken: ${told.detail}.`);
  else if (told.kind === "stands") log(`The vehicle of robot ${told.errand.robot} stands at ${place(told.errand.cell)}`);
  else if (told.kind === "hello") state("live", "live");
}

function showRobots(told) {
  robots = told.robots;
  const busy = robots.filter(it => it.errands).sort((one, other) => other.eldest - one.eldest || other.wait - one.wait);
  $("open").textContent = busy.reduce((sum, it) => sum + it.errands, 0);
  $("wait").textContent = busy.length ? `${busy[0].wait} ticks, robot ${busy[0].robot}` : "none";
  $("robots").replaceChildren(...busy.slice(0, MOST_ROBOTS).map(it => {
    const row = document.createElement("tr");
    row.className = it.eldest ? "eldest" : "";
    for (const text of [it.robot, it.errands, it.wait, place(cells[it.robot] ?? it.cell), place(it.goal)]) row.insertCell().textContent = text;
    return row;
  }));
}

/** Looks soon, since an errand began or ended. */
function soon() {
  if (isSoon) return;
  isSoon = true;
  clearTimeout(timer);
  timer = setTimeout(look, SOON_MS);
}

async function look() {
  isSoon = false;
  try {
    if (document.body.dataset.state !== "token" && socket && socket.readyState === WebSocket.OPEN) {
      const ready = await ask("ready");
      if (!ready.is_ready) state("starting", "the fleet is starting");
      else if (ready.trouble) state("held", ready.trouble);
      else if (["starting", "held"].includes(document.body.dataset.state)) state("live", "live");
      if (site) showRobots(await ask("robots"));
    }
  } catch { /* the socket tells when the connection is lost */ }
  if (!isSoon) timer = setTimeout(look, LOOK_MS);
}

async function connect() {
  try {
    site = await ask("site");
    $("site").textContent = document.title = `Fleet: ${site.name}`;
    measure();
  } catch (error) {
    if (error.message !== "token") return again();
    $("entry").hidden = false;
    return state("token", "a token is needed");
  }
  $("entry").hidden = true;
  sessionStorage.setItem("token", token);
  socket = new WebSocket(`${location.origin.replace("http", "ws")}/stream?all=1&ticks=${TICK_MS}`);
  socket.onopen = () => { lost = 0; if (token) socket.send(JSON.stringify({token})); };
  socket.onmessage = ({data}) => hear(JSON.parse(data));
  socket.onclose = again;
}

function again() {
  lost++;
  state("lost", "connection lost: trying again");
  setTimeout(connect, Math.min(5000, 500 * lost));
}

$("entry").onsubmit = event => { event.preventDefault(); token = $("token").value; connect(); };
$("map").addEventListener("click", pick);
addEventListener("keydown", event => { if (event.key === "Escape") choose(null); });
addEventListener("resize", measure);
matchMedia("(prefers-color-scheme: dark)").addEventListener("change", measure);
hint();
connect();
look();
requestAnimationFrame(draw);
