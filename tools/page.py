"""A picture with the lines of its trace beside it, in one file of HTML, scrolled together; for tools/draw. It isn't proved."""
import re
from html import escape

from picture import LEFT, PLOT

PAGE = """<!DOCTYPE html>
<html lang="en"><head><meta charset="utf-8"><title>@TITLE@</title>
<style>
html, body { height: 100%; margin: 0 }
body { display: flex; gap: 8px; padding: 8px; box-sizing: border-box; font: 12px/16px ui-monospace, Menlo, Consolas, 'DejaVu Sans Mono', monospace; color: #24292f }
#picture { overflow: auto; flex: 0 1 960px; cursor: crosshair }
#list { overflow: auto; flex: 1 1 420px; min-width: 300px; position: relative; border: 1px solid #e6e8eb; border-radius: 6px }
#lines { margin: 0; padding: 0 8px; font: inherit; position: relative }
#here { position: absolute; left: 0; right: 0; height: 16px; background: #fff3c4 }
#cursor { stroke: #24292f; stroke-width: 1; stroke-opacity: 0.7; pointer-events: none }
@media (max-width: 1300px) { body { flex-direction: column } #picture { flex: 0 1 auto; max-height: 60% } #list { flex: 1 1 200px } }
</style></head><body>
<div id="picture">
@PICTURE@</div>
<div id="list" tabindex="0"><div id="here"></div><pre id="lines">@LINES@</pre></div>
<script>
"use strict";
const FIRST = @FIRST@, LAST = @LAST@, LEFT = @LEFT@, PLOT = @PLOT@, HIGH = 16;
const list = document.getElementById("list"), here = document.getElementById("here"), svg = document.querySelector("#picture svg");
// The step of each line. The last line has none: it stands at the end.
const steps = document.getElementById("lines").textContent.split("\\n").map(line => /^\\d/.test(line) ? parseInt(line, 10) : LAST);
const cursor = document.createElementNS(svg.namespaceURI, "path");
cursor.id = "cursor";
svg.appendChild(cursor);

function show(line) {
    const x = LEFT + (Math.min(Math.max(steps[line], FIRST), LAST) - FIRST) / (LAST - FIRST) * PLOT;
    cursor.setAttribute("d", `M${x} 12V${svg.viewBox.baseVal.height - 12}`);
    here.style.top = `${line * HIGH}px`;
    list.dataset.step = steps[line];
}

// The line of the list that belongs to where it is scrolled: its first one at the top, its last one at the bottom.
function lineOfScroll() {
    const room = list.scrollHeight - list.clientHeight;
    const at = room > 0 ? list.scrollTop / room : 0;
    return Math.min(Math.round((list.scrollTop + at * (list.clientHeight - HIGH)) / HIGH), steps.length - 1);
}

// The first line of a step, or of the next that has one.
function lineOfStep(step) {
    let low = 0, high = steps.length - 1;
    while (low < high) {
        const middle = low + high >> 1;
        if (steps[middle] < step) low = middle + 1; else high = middle;
    }
    return low;
}

list.addEventListener("scroll", () => show(lineOfScroll()));
document.getElementById("lines").addEventListener("click", event =>
    show(Math.min(Math.floor((event.clientY - list.getBoundingClientRect().top + list.scrollTop) / HIGH), steps.length - 1)));
svg.addEventListener("click", event => {
    const at = new DOMPoint(event.clientX, event.clientY).matrixTransform(svg.getScreenCTM().inverse());
    const line = lineOfStep(Math.floor(FIRST + (at.x - LEFT) / PLOT * (LAST - FIRST)));
    const room = list.scrollHeight - list.clientHeight;
    // the place whose line this is, by lineOfScroll the other way round
    list.scrollTop = room > 0 ? line * HIGH / (1 + (list.clientHeight - HIGH) / room) : 0;
    show(line);
});
show(0);
</script></body></html>
"""


def lines_shown(lines, first, last):
    """Those of the steps that are shown, and the last one, which has none."""
    numbered = [(int(it.split(" ", 1)[0]) if it[0].isdigit() else None, it) for it in lines if it]
    return [it for step, it in numbered if step is None or first <= step <= last]


def page_of(picture, svg, title, lines):
    """The page of a picture and of the lines of its trace. What stands in them can't end their places: it is escaped."""
    told = "\n".join(lines_shown(lines, picture.first, picture.last))
    parts = {"TITLE": escape(title), "PICTURE": svg, "LINES": escape(told), "FIRST": picture.first, "LAST": picture.last,
             "LEFT": LEFT, "PLOT": PLOT}
    return re.sub(r"@([A-Z]+)@", lambda it: str(parts[it[1]]), PAGE)
