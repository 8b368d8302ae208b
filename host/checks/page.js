// Put behind a page's own script by page.sh: goes through the page by its keys and writes down what is drawn at each step, for
// page.sh to compare. It reads the drawing and the words only, none of the page's variables.
"use strict";
{
    const HOLDS = "rgb(246, 178, 107)";
    const SEEN = "rgb(147, 196, 125)";
    const lines = [];
    const part = (id) => document.getElementById(id);
    const all = (choice) => [...document.querySelectorAll(choice)];
    const press = (key) => document.dispatchEvent(new KeyboardEvent("keydown", { key, cancelable: true }));
    const step = () => part("count").textContent;

    // 0,2,5-7 as a list; nothing for none.
    const members = (text) => text.split(",").filter((word) => /^[0-9]/.test(word)).flatMap((word) => {
        const [first, last = first] = word.split("-").map(Number);
        return Array.from({ length: last - first + 1 }, (_, place) => first + place);
    });

    // The network by the desks' tooltips, as `relay --json` says it.
    const network = () => {
        const peers = all(".desk:not(.absent)").map((desk) => {
            const [name, sets] = desk.querySelector("title").textContent.split(": ");
            const fields = sets.split("; ").map((set) => set.split(" ")).map(([field, set]) => [field, members(set)]);
            return { peer: Number(name.split(" ")[1]), ...Object.fromEntries(fields) };
        });
        const pairs = peers.reduce((sum, desk) => sum + desk.pending.length, 0);
        return JSON.stringify({ kind: "network", peers, pending_pairs: pairs });
    };

    // Who has the chosen message, by colours.
    const message = () => {
        const [, number, topic, origin] = part("having").textContent.match(/^message ([0-9]+) \(topic ([0-9]+), origin ([0-9]+)\)/);
        const coloured = (colour) => all(".desk:not(.absent)")
            .filter((desk) => getComputedStyle(desk.querySelector("circle")).fill === colour)
            .map((desk) => Number(desk.querySelector(".number").textContent));
        const found = { kind: "message", message: Number(number), topic: Number(topic), origin: Number(origin) };
        return JSON.stringify({ ...found, pending: coloured(HOLDS), seen: coloured(SEEN) });
    };

    // How many words lie on another desk or its words, or outside the picture.
    const unreadable = () => {
        const picture = part("picture").getBoundingClientRect();
        const boxes = all(".desk").flatMap((desk) => [...desk.querySelectorAll("circle, .beside")].map((drawn) => [desk, drawn.getBoundingClientRect()]));
        const touch = (one, other) => one.left < other.right && other.left < one.right && one.top < other.bottom && other.top < one.bottom;
        const overlaps = boxes.filter(([desk, box]) => boxes.some(([other, rest]) => other !== desk && touch(box, rest)));
        const outside = boxes.filter(([, box]) => box.left < picture.left || box.right > picture.right || box.top < picture.top || box.bottom > picture.bottom);
        return overlaps.length + outside.length;
    };

    const write = () => {
        lines.push(`${step()} | ${part("source").textContent} | ${part("text").className} ${part("text").textContent.replace(/\n/g, " / ")}`);
        lines.push(`links ${all("#links .link").map((link) => link.dataset.link).join(" ")}`);
        lines.push(`arrows ${all("#arrows g").map((arrow) => `${arrow.dataset.pair.replace(">", "-")}:${arrow.dataset.messages}`).join(" ")}`);
        const circles = all(".desk").map((desk) => [desk.dataset.peer, desk.textContent.match(/circle ([0-9]+)/)]);
        lines.push(`circles ${circles.filter(([, circle]) => circle).map(([peer, circle]) => `${peer}:${circle[1]}`).join(" ")}`);
        lines.push(`${part("having").textContent} | ${part("underway").textContent}`);
        lines.push(`absent ${all(".desk.absent").length}, unreadable ${unreadable()}`);
        lines.push(network(), message());
        if (part("said").textContent !== "") lines.push("said " + part("said").textContent);
    };

    // By keys to the end and back, then by the timer and the slider.
    press("ArrowLeft");
    for (let before = ""; before !== step(); press("ArrowRight")) {
        before = step();
        write();
    }
    press("Home");
    lines.push("home: " + step());
    press("End");
    lines.push("end: " + step());
    press("ArrowRight");
    press("ArrowLeft");
    lines.push("left: " + step());
    press("Home");
    press(" ");
    setTimeout(() => {
        press(" ");
        lines.push("played: " + step());
        setTimeout(() => {
            lines.push("stopped: " + step());
            part("slider").value = 1;
            part("slider").dispatchEvent(new Event("input"));
            lines.push("slid: " + step());
            part("first").click();
            lines.push("first: " + step());
            press("End");
            part("message").value = "all";
            part("message").dispatchEvent(new Event("change"));
            lines.push("all: " + part("having").textContent + " | " + all(".desk .beside").map((words) => words.textContent).join(", "));
            let sum = 0;
            for (let before = ""; before !== step(); press("ArrowLeft")) {
                before = step();
                sum += unreadable();
            }
            lines.push(`all: unreadable ${sum}`);
            const written = document.createElement("pre");
            written.textContent = "\nWRITTEN\n" + lines.map((line) => line.trim()).join("\n") + "\nWRITTEN\n";
            document.body.append(written);
        }, 2500);
    }, 2500);
}
