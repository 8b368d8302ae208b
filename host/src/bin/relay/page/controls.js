// The words beside the picture, and what moves the page from step to step.

function having(state) {
    if (chosen === null) return `${state.desks.size} ${state.desks.size === 1 ? "desk" : "desks"} present`;
    const { topic, origin } = state.rows.get(chosen);
    const [holding, seen] = [holders(state, chosen), seers(state, chosen)];
    const name = `message ${chosen} (topic ${topic}, origin ${origin})`;
    if (holding.length > 0) {
        const seers = seen.length > 0 ? numbers(seen) : "nobody";
        return `${name} is still under way: pending at ${numbers(holding)}, seen by ${seers}`;
    }
    if (seen.length > 0) return `${name} is no longer under way: pending nowhere, seen by ${numbers(seen)}`;
    return `${name}: nobody has it`;
}

function underWay(state) {
    const going = messages.filter((message) => holders(state, message).length > 0);
    if (going.length === 0) return "nothing is under way";
    return `under way: ${going.length > 1 ? "messages" : "message"} ${numbers(going)}`;
}

function drawWords(state) {
    const step = run.steps[shown];
    part("count").textContent = `step ${shown} of ${run.steps.length - 1}`;
    part("slider").value = shown;
    part("said").replaceChildren(...step.said.map((said) => {
        const line = document.createElement("div");
        line.textContent = said;
        return line;
    }));
    part("source").textContent = step.line > 0 ? `${step.line}: ${step.source}` : "";
    part("text").textContent = step.text;
    part("text").className = step.refused ? "refused" : "";
    part("having").textContent = having(state);
    part("underway").textContent = underWay(state);
}

// The colours that the picture has now, its lines, and the circles.
function drawLegend() {
    const entries = run.looks.filter((look) => (chosen === null) === (look.words === ""));
    const disc = (colour) => [["circle", { cx: 17, cy: 8, r: 7, style: `fill: ${colour}; stroke: #333333` }]];
    const line = (name) => [["path", { class: name, d: "M 1 8 L 31 8" }]];
    const arrow = (name) => [["path", { class: name, d: "M 1 8 L 31 8 M 23 3 L 31 8 L 23 13" }]];
    const meaning = (look) => (look.words === "waits" || look.words === "apart" ? `${look.words}: ${look.meaning}` : look.meaning);
    const signs = entries.map((look) => [disc(look.colour), meaning(look)]);
    signs.push([line("link"), "a link between two neighbours"]);
    signs.push([arrow("arrow"), chosen === null ? "a delivery at this step" : "a delivery of this message at this step"]);
    if (chosen !== null) {
        signs.push([arrow("arrow other"), "a delivery of another message"]);
        signs.push([[], "circle: the round of a drain that first reached the desk; 0 held it"]);
    }
    part("legend").replaceChildren(...signs.map(([sign, meaning]) => {
        const entry = document.createElement("li");
        const picture = drawn(entry, "svg", { viewBox: "0 0 34 16" });
        for (const shape of sign) drawn(picture, ...shape);
        const words = document.createElement("span");
        words.textContent = meaning;
        entry.append(words);
        return entry;
    }));
}

// Shows a step; one before the first or behind the last is the first or the last.
function show(step) {
    shown = Math.max(0, Math.min(run.steps.length - 1, Number.isInteger(step) ? step : 0));
    const state = states[shown];
    drawLinks(state);
    drawArrows();
    drawDesks(state);
    drawWords(state);
}

function choose(message) {
    chosen = messages.includes(message) ? message : null;
    part("message").value = chosen === null ? "all" : chosen;
    drawLegend();
    show(shown);
}

function stop() {
    clearInterval(timer);
    timer = null;
    part("play").textContent = "play";
}

function play() {
    if (timer !== null) return stop();
    if (shown === run.steps.length - 1) show(0);
    part("play").textContent = "stop";
    timer = setInterval(() => {
        show(shown + 1);
        if (shown === run.steps.length - 1) stop();
    }, SECOND);
}

// What a person asks for while it plays stops it.
function go(step) {
    stop();
    show(step);
}

const MOVES = {
    ArrowLeft: () => go(shown - 1),
    ArrowRight: () => go(shown + 1),
    Home: () => go(0),
    End: () => go(run.steps.length - 1),
    " ": play,
};

// The list of messages keeps its own keys.
function onKey(event) {
    const move = MOVES[event.key];
    if (move === undefined || event.target === part("message") || event.ctrlKey || event.altKey || event.metaKey) return;
    event.preventDefault();
    move();
}

// What the fragment asks for.
function fromFragment() {
    const asked = new URLSearchParams(location.hash.slice(1));
    if (asked.has("message")) choose(parseInt(asked.get("message"), 10));
    if (asked.has("step")) go(parseInt(asked.get("step"), 10));
}

function begin() {
    part("picture").setAttribute("viewBox", run.view.join(" "));
    part("slider").max = run.steps.length - 1;
    part("message").append(new Option("all", "all"), ...messages.map((message) => new Option(message, message)));
    const buttons = { first: MOVES.Home, back: MOVES.ArrowLeft, play, on: MOVES.ArrowRight, last: MOVES.End };
    for (const [id, move] of Object.entries(buttons)) {
        part(id).addEventListener("click", () => {
            move();
            // So that space goes on playing, whichever button was pressed.
            part(id).blur();
        });
    }
    part("slider").addEventListener("input", () => go(Number(part("slider").value)));
    part("message").addEventListener("change", () => choose(parseInt(part("message").value, 10)));
    document.addEventListener("keydown", onKey);
    window.addEventListener("hashchange", fromFragment);
    choose(chosen);
    fromFragment();
}

begin();
