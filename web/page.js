// The page: what is asked is searched, shown, and stopped.
"use strict";

// Counts the seconds of a search until it ends.
function countSeconds(start) {
    return setInterval(() => {
        part("status").textContent = `Searching for ${((performance.now() - start) / 1000).toFixed(0)} s …`;
    }, 1000);
}

// Shows whether a search runs.
function showRunning(isRunning) {
    part("progress").hidden = !isRunning;
    part("stop").disabled = !isRunning;
    part("run").disabled = isRunning;
    part("result").setAttribute("aria-busy", String(isRunning));
}

// The files that a command reads.
function filesOf(asked) {
    if (!finder.commands[asked.command].readsFiles) return [];
    return [...finder.files, ...(asked.command === "verify" && finder.certificate ? [finder.certificate] : [])];
}

// Searches for what the form asks, and shows the answer.
finder.search = async () => {
    const asked = finder.currentAsked(), words = finder.currentWords(), start = performance.now();
    finder.clear();
    part("status").textContent = "Searching …";
    showRunning(true);
    const timer = countSeconds(start);
    // A page that has to search itself shows this first.
    await new Promise((resolve) => { setTimeout(resolve, 20); });
    finder.running = finder.start(words, filesOf(asked));
    try {
        const answer = await finder.running.answer;
        if (answer) finder.show(answer, asked);
        else part("status").textContent = `Stopped after ${((performance.now() - start) / 1000).toFixed(1)} s.`;
    } catch (error) {
        part("status").textContent = "The module does not run here.";
        showRefusal(-1, `${error.message}. The module needs a browser that has WebAssembly with memory of 64 bits.`);
    } finally {
        clearInterval(timer);
        showRunning(false);
    }
    if (matchMedia("(max-width: 900px)").matches) part("result").scrollIntoView({ block: "start" });
};

// Copies the command, or marks it if the browser refuses to.
async function copyCommand() {
    try {
        await navigator.clipboard.writeText(part("command").textContent);
        part("copy").textContent = "Copied";
        setTimeout(() => { part("copy").textContent = "Copy the command"; }, 1500);
    } catch {
        getSelection().selectAllChildren(part("command"));
    }
}

finder.makeForm();
finder.listenForFiles();
finder.clear();
part("form").addEventListener("submit", (event) => {
    event.preventDefault();
    if (!part("run").disabled) finder.search();
});
part("stop").addEventListener("click", () => finder.running?.stop());
part("copy").addEventListener("click", copyCommand);
part("module").textContent = finder.moduleSays ?? "";
new ResizeObserver(finder.draw).observe(part("picture").parentElement.parentElement);
