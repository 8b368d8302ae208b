"use strict";
// Plays the run that stands in this page as JSON. The states in it are those that the engine made; nothing here changes one, it
// only draws them. The fragment says what is shown: #step=3&message=5.

const run = JSON.parse(document.getElementById("run").textContent);
const states = wholeStates();
const messages = messagesOfRun();
const looks = new Map(run.looks.map((look) => [look.look, look]));

// What is shown: a step, a message (null: all of them), and the timer while it plays.
let shown = 0;
let chosen = messages.length > 0 ? messages[0] : null;
let timer = null;

const SECOND = 1000;

// With more links or arrows than this they are drawn thin.
const MANY = 64;

function part(id) {
    return document.getElementById(id);
}

// The state at each step, from what each says of the desks and rows that differ. Desks that stay are shared.
function wholeStates() {
    let desks = new Map();
    let rows = new Map();
    return run.steps.map((step) => {
        desks = new Map(desks);
        for (const desk of step.desks) {
            if (typeof desk === "number") desks.delete(desk);
            else desks.set(desk.peer, desk);
        }
        rows = new Map(rows);
        for (const [message, topic, origin] of step.rows) rows.set(message, { topic, origin });
        return { desks, rows };
    });
}

// The messages that some desk has at some step, rising.
function messagesOfRun() {
    const found = new Set();
    for (const step of run.steps) {
        for (const desk of step.desks) {
            if (typeof desk === "number") continue;
            for (const message of desk.pending.concat(desk.seen)) found.add(message);
        }
    }
    return [...found].sort((one, other) => one - other);
}

// The peers of a state for which something holds, rising.
function peers(state, holds) {
    return [...state.desks.values()].filter(holds).map((desk) => desk.peer).sort((one, other) => one - other);
}

function holders(state, message) {
    return peers(state, (desk) => desk.pending.includes(message));
}

function seers(state, message) {
    return peers(state, (desk) => desk.seen.includes(message));
}

// Numbers as the tool writes them: 0,2,5-7.
function numbers(list) {
    const parts = [];
    for (let at = 0; at < list.length; at++) {
        const first = at;
        while (list[at + 1] === list[at] + 1) at++;
        if (at - first < 2) parts.push(...list.slice(first, at + 1));
        else parts.push(list[first] + "-" + list[at]);
    }
    return parts.length > 0 ? parts.join(",") : "none";
}

// How a desk looks, as in the tool's pictures.
function lookOf(desk, state) {
    if (chosen === null) return desk.pending.length > 0 ? "busy" : "quiet";
    if (desk.pending.includes(chosen)) return "holds";
    if (desk.seen.includes(chosen)) return "seen";
    return desk.subs.includes(state.rows.get(chosen).topic) ? "waits" : "apart";
}

// In a drain: the round in which each desk was first reached by the chosen message, 0 for those that held it at the start. A desk is
// reached in a round if it has the message after it and hadn't before.
function circles() {
    const reached = new Map();
    const round = run.steps[shown].round;
    if (chosen === null || round === 0) return reached;
    const start = shown - round;
    for (const peer of holders(states[start], chosen)) reached.set(peer, 0);
    for (let done = 1; done <= round; done++) {
        const before = states[start + done - 1];
        const had = new Set(holders(before, chosen).concat(seers(before, chosen)));
        for (const peer of holders(states[start + done], chosen)) {
            if (!had.has(peer)) reached.set(peer, done);
        }
    }
    return reached;
}

// A new element of the picture, with attributes and text.
function drawn(parent, name, attributes, text) {
    const element = document.createElementNS(part("picture").namespaceURI, name);
    for (const [attribute, value] of Object.entries(attributes)) element.setAttribute(attribute, value);
    if (text !== undefined) element.textContent = text;
    parent.append(element);
    return element;
}

function drawLinks(state) {
    const group = part("links");
    group.replaceChildren();
    const there = run.links.filter(([one, other]) => {
        const desk = state.desks.get(one);
        return desk !== undefined && desk.neighbours.includes(other);
    });
    group.setAttribute("class", there.length > MANY ? "many" : "");
    for (const [one, other, ...at] of there) {
        const [x, y, bendX, bendY, toX, toY] = at;
        const path = drawn(group, "path", { class: "link", d: `M ${x} ${y} Q ${bendX} ${bendY} ${toX} ${toY}` });
        path.dataset.link = one + "-" + other;
        drawn(path, "title", {}, one + " - " + other);
    }
}

// The ends and the bend of the link between two desks, from the one to the other; null if they are never linked.
function curve(from, to) {
    const link = run.links.find(([one, other]) => one === Math.min(from, to) && other === Math.max(from, to));
    if (link === undefined) return null;
    const [, , x, y, bendX, bendY, toX, toY] = link;
    const points = [[x, y], [bendX, bendY], [toX, toY]];
    return from < to ? points : points.reverse();
}

// The point of a curve that belongs to two shares of the way; with the same share twice, the point at that share.
function between([start, bend, end], one, other) {
    const weights = [(1 - one) * (1 - other), one * (1 - other) + other * (1 - one), one * other];
    return [0, 1].map((axis) => weights[0] * start[axis] + weights[1] * bend[axis] + weights[2] * end[axis]);
}

// An arrow along a curve, from the edge of one desk to the edge of the other.
function arrow(points) {
    const away = (share, end) => Math.hypot(...between(points, share, share).map((value, axis) => value - end[axis]));
    let [first, last] = [0, 1];
    while (first < 0.5 && away(first, points[0]) < run.radius + 2) first += 0.005;
    while (last > 0.5 && away(last, points[2]) < run.radius + 4) last -= 0.005;
    const [start, bend, tip] = [between(points, first, first), between(points, first, last), between(points, last, last)];
    const angle = Math.atan2(tip[1] - bend[1], tip[0] - bend[0]);
    const barb = (turn) => [tip[0] - 11 * Math.cos(angle + turn), tip[1] - 11 * Math.sin(angle + turn)];
    const at = (point) => point.map((value) => value.toFixed(1)).join(" ");
    return { line: `M ${at(start)} Q ${at(bend)} ${at(tip)}`, head: `M ${at(barb(0.5))} L ${at(tip)} L ${at(barb(-0.5))}` };
}

// An arrow for each pair of desks with deliveries; those of the chosen message lie on top.
function drawArrows() {
    const group = part("arrows");
    group.replaceChildren();
    const pairs = new Map();
    for (const [from, to, message] of run.steps[shown].deliveries) {
        const pair = from + ">" + to;
        pairs.set(pair, (pairs.get(pair) || []).concat(message));
    }
    const isOther = (list) => chosen !== null && !list.includes(chosen);
    group.setAttribute("class", pairs.size > MANY ? "many" : "");
    for (const [pair, list] of [...pairs].sort((one, other) => isOther(other[1]) - isOther(one[1]))) {
        const points = curve(...pair.split(">").map(Number));
        if (points === null) continue;
        const { line, head } = arrow(points);
        const both = drawn(group, "g", {});
        Object.assign(both.dataset, { pair, messages: list.join(",") });
        const look = chosen === null ? "arrow any" : isOther(list) ? "arrow other" : "arrow";
        drawn(both, "path", { class: look, d: `${line} ${head}` });
        drawn(both, "title", {}, `${pair.replace(">", " to ")}: message ${numbers(list)}`);
    }
}

// What stands beside a desk.
function linesOf(desk, look, circle) {
    if (chosen === null) return ["pending", "seen"].filter((set) => desk[set].length > 0).map((set) => `${desk[set].length} ${set}`);
    return [looks.get(look).words].concat(circle === undefined ? [] : ["circle " + circle]);
}

function drawDesks(state) {
    const group = part("desks");
    group.replaceChildren();
    const reached = circles();
    for (const [peer, x, y, labelX, labelY, anchor] of run.spots) {
        const desk = state.desks.get(peer);
        const look = desk === undefined ? "absent" : lookOf(desk, state);
        const element = drawn(group, "g", { class: "desk " + look });
        element.dataset.peer = peer;
        const circle = drawn(element, "circle", { cx: x, cy: y, r: run.radius });
        if (desk !== undefined) circle.style.fill = looks.get(look).colour;
        drawn(element, "text", { class: "number", x, y: y + 6 }, peer);
        const lines = desk === undefined ? ["absent"] : linesOf(desk, look, reached.get(peer));
        // There is room for two lines: one alone stands on the desk's side of it.
        const lower = lines.length === 1 ? (1 - y / Math.max(1, Math.hypot(x, y))) / 2 : 0;
        lines.forEach((line, place) => {
            const height = labelY + run.line * (place + lower);
            drawn(element, "text", { class: "beside", x: labelX, y: height, "text-anchor": anchor, "font-size": run.letters }, line);
        });
        drawn(element, "title", {}, tooltip(peer, desk));
    }
}

function tooltip(peer, desk) {
    if (desk === undefined) return `desk ${peer} is absent`;
    const sets = ["subs", "pubs", "neighbours", "pending", "seen"].map((name) => `${name} ${numbers(desk[name])}`);
    return `desk ${peer}: ${sets.join("; ")}`;
}
