"use strict";
(() => {
  const data = JSON.parse(document.getElementById("data").textContent);
  const tip = document.getElementById("tip");

  function element(name, text, parent) {
    const made = document.createElement(name);
    if (text !== undefined) made.textContent = text;
    if (parent) parent.append(made);
    return made;
  }

  function colour(name) {
    return getComputedStyle(document.documentElement).getPropertyValue(name).trim();
  }

  function showTip(text, event) {
    tip.textContent = text;
    tip.hidden = false;
    const box = tip.getBoundingClientRect();
    tip.style.left = Math.max(4, Math.min(event.clientX + 14, innerWidth - box.width - 4)) + "px";
    tip.style.top = Math.max(4, Math.min(event.clientY + 14, innerHeight - box.height - 4)) + "px";
  }

  // ---- the drawing: larger, smaller, as wide as the page

  function drawingTools() {
    const section = document.getElementById("drawing");
    const svg = section.querySelector("svg");
    if (!svg) return;
    const box = svg.viewBox.baseVal;
    const natural = box.width * 4 / 3;
    // In a narrow window the drawing stays legible, and is moved.
    const fit = () => Math.max(natural * 0.7, Math.min(natural, section.querySelector(".frame").clientWidth));
    let width = fit(), fitted = true;
    const show = () => {
      svg.setAttribute("width", width);
      svg.setAttribute("height", width * box.height / box.width);
    };
    section.querySelector(".tools").hidden = false;
    section.querySelector(".tools").addEventListener("click", event => {
      const deed = event.target.dataset.do;
      if (!deed) return;
      fitted = deed === "fit";
      width = fitted ? fit() : Math.max(100, Math.min(20000, width * (deed === "in" ? 1.4 : 1 / 1.4)));
      show();
    });
    addEventListener("resize", () => { if (fitted) { width = fit(); show(); } });
    show();
    const marked = svg.querySelector(".marked");
    if (marked) marked.scrollIntoView({block: "nearest", inline: "center"});
    scrollTo(0, 0);
  }

  // ---- traces: a place on the axis for each tag, and for each token of one port at one tag

  // Where tags fall (a refinement that began anew) tokens stand in the order of their tags.
  function prepared(traces) {
    const slots = new Map();
    for (const trace of traces) {
      const seen = new Map();
      trace.keys = trace.times.map((time, number) => {
        const tag = time + "." + trace.steps[number];
        const place = seen.get(tag) || 0;
        seen.set(tag, place + 1);
        const key = tag + "." + place;
        if (!slots.has(key)) slots.set(key, {time: Number(time), step: trace.steps[number], place, tag});
        return key;
      });
    }
    const sorted = [...slots.entries()].sort(([, a], [, b]) => a.time - b.time || a.step - b.step || a.place - b.place);
    const times = [...new Set(sorted.map(([, slot]) => slot.time))];
    const count = new Map();
    for (const [, slot] of sorted) count.set(slot.time, (count.get(slot.time) || 0) + 1);
    let at = 0, last = null;
    sorted.forEach(([, slot], number) => {
      at = slot.time === last ? at + 1 : 0;
      last = slot.time;
      slot.order = number;
      // Microsteps of a time stand side by side in the first half of its tick.
      slot.spread = slot.time + 0.5 * at / count.get(slot.time);
    });
    for (const trace of traces) {
      trace.order = trace.keys.map(key => slots.get(key).order);
      trace.spread = trace.keys.map(key => slots.get(key).spread);
      trace.sequence = trace.keys.map((_, number) => number).sort((a, b) => trace.order[a] - trace.order[b]);
      trace.xs = {};
      for (const axis of ["order", "spread"]) trace.xs[axis] = trace.sequence.map(number => trace[axis][number]);
      trace.longest = trace.kind === "int" ? trace.values.reduce((most, value) => Math.max(most, String(value).length), 0) : 0;
      delete trace.keys;
    }
    return {tags: sorted.map(([, slot]) => slot), times};
  }

  class Plots {
    constructor(traces) {
      this.traces = traces;
      this.slots = prepared(traces);
      this.section = document.getElementById("traces");
      this.section.hidden = false;
      this.holder = this.section.querySelector(".plots");
      this.select = this.section.querySelector("select");
      this.select.value = this.slots.times.length > 1 ? "time" : "order";
      this.plots = traces.map(trace => this.plot(trace));
      this.axis = element("canvas", undefined, this.holder);
      this.fit();
      this.listen();
      new ResizeObserver(() => this.draw()).observe(this.holder);
      matchMedia("(prefers-color-scheme: dark)").addEventListener("change", () => this.draw());
    }

    plot(trace) {
      const box = element("div", undefined, this.holder);
      box.className = "plot";
      const title = element("h3", trace.port + " ", box);
      const kinds = {int: "integers", truth: "truth values", text: "texts", array: "arrays", record: "records", none: "no token", mixed: "several types"};
      const many = trace.total === 1 ? "1 token, " : trace.total ? `${trace.total.toLocaleString("en")} tokens, ` : "";
      element("span", many + (kinds[trace.kind] || trace.kind), title);
      const canvas = element("canvas", undefined, box);
      this.table(trace, box);
      canvas.addEventListener("mousemove", event => this.hover(trace, canvas, event));
      canvas.addEventListener("mouseleave", () => { tip.hidden = true; this.cross = null; this.draw(); });
      return {trace, canvas};
    }

    // The first tokens as a table, for whoever can't see plots.
    table(trace, box) {
      if (!trace.values.length) return;
      const details = element("details", undefined, box);
      element("summary", "as a table", details);
      details.addEventListener("toggle", () => {
        if (!details.open || details.querySelector("table")) return;
        const table = element("table", undefined, details);
        const head = element("tr", undefined, table);
        for (const word of ["number", "tag", "value"]) element("th", word, head);
        trace.values.slice(0, 1000).forEach((value, number) => {
          const row = element("tr", undefined, table);
          for (const word of [number, trace.times[number] + "." + trace.steps[number], value]) element("td", String(word), row);
        });
        if (trace.values.length > 1000) element("p", "These are the first 1,000.", details);
      });
    }

    get kind() { return this.select.value === "time" ? "spread" : "order"; }

    fit() {
      const all = this.slots.tags;
      const value = slot => slot[this.kind];
      const first = all.length ? value(all[0]) : 0, last = all.length ? value(all[all.length - 1]) : 0;
      const room = Math.max((last - first) * 0.03, (last - first) / Math.max(1, all.length - 1) * 0.5, 1e-9) || 1;
      this.whole = [first - room * 0.5, (last === first ? last + 1 : last + room)];
      this.range = [...this.whole];
    }

    listen() {
      const holder = this.holder;
      this.section.querySelector(".tools").addEventListener("click", event => {
        const deed = event.target.dataset.do;
        if (deed === "fit") { this.fit(); this.draw(); }
        else if (deed) this.zoom(deed === "in" ? 0.6 : 1 / 0.6, 0.5);
      });
      this.select.addEventListener("change", () => { this.fit(); this.draw(); });
      holder.addEventListener("wheel", event => {
        if (!event.ctrlKey && !event.metaKey) {
          if (event.shiftKey || Math.abs(event.deltaX) > Math.abs(event.deltaY)) {
            event.preventDefault();
            this.move((event.deltaX || event.deltaY) / 800);
          }
          return;
        }
        event.preventDefault();
        this.zoom(Math.exp(event.deltaY / 300), this.part(event));
      }, {passive: false});
      holder.addEventListener("dblclick", event => this.zoom(0.5, this.part(event)));
      holder.addEventListener("pointerdown", event => { if (event.target.tagName === "CANVAS") this.from = event.clientX; });
      addEventListener("pointerup", () => { this.from = null; });
      addEventListener("pointermove", event => {
        if (this.from == null) return;
        this.move((this.from - event.clientX) / this.width());
        this.from = event.clientX;
      });
      holder.addEventListener("keydown", event => {
        const deeds = {ArrowLeft: () => this.move(-0.15), ArrowRight: () => this.move(0.15), "+": () => this.zoom(0.6, 0.5), "=": () => this.zoom(0.6, 0.5),
          "-": () => this.zoom(1 / 0.6, 0.5), "0": () => { this.fit(); this.draw(); }};
        if (deeds[event.key]) { event.preventDefault(); deeds[event.key](); }
      });
    }

    // The room for the numbers at the left of the plots.
    get left() {
      const wanted = 12 + 7.3 * Math.max(5, ...this.traces.map(trace => trace.longest));
      return Math.min(wanted, this.holder.clientWidth < 600 ? 70 : 170);
    }
    width() { return Math.max(50, this.holder.clientWidth - this.left - 8); }
    part(event) {
      const box = this.holder.getBoundingClientRect();
      return Math.max(0, Math.min(1, (event.clientX - box.left - this.left) / this.width()));
    }
    x(value) { return this.left + (value - this.range[0]) / (this.range[1] - this.range[0]) * this.width(); }

    zoom(factor, part) {
      const span = this.range[1] - this.range[0], all = this.whole[1] - this.whole[0];
      const wanted = Math.max(all * 1e-9, Math.min(all, span * factor));
      const centre = this.range[0] + span * part;
      this.range = [centre - wanted * part, centre + wanted * (1 - part)];
      this.move(0);
    }

    move(part) {
      const span = this.range[1] - this.range[0];
      let first = this.range[0] + part * span;
      first = Math.max(this.whole[0], Math.min(this.whole[1] - span, first));
      this.range = [first, first + span];
      this.draw();
    }

    hover(trace, canvas, event) {
      const xs = trace.xs[this.kind];
      if (!xs.length || this.from != null) { tip.hidden = true; return; }
      const at = this.range[0] + (event.clientX - canvas.getBoundingClientRect().left - this.left) / this.width() * (this.range[1] - this.range[0]);
      let number = lower(xs, at);
      if (number === xs.length || (number > 0 && at - xs[number - 1] < xs[number] - at)) number -= 1;
      const token = trace.sequence[number];
      this.cross = xs[number];
      this.draw();
      showTip(`number ${token}, tag ${trace.times[token]}.${trace.steps[token]}\n${String(trace.values[token]).slice(0, 400)}`, event);
    }

    draw() {
      if (this.waiting) return;
      this.waiting = true;
      requestAnimationFrame(() => { this.waiting = false; this.drawNow(); });
    }

    drawNow() {
      this.colours = Object.fromEntries(["ink", "faint", "line", "plot", "plot-soft", "bus"].map(name => [name, colour("--" + name)]));
      for (const {trace, canvas} of this.plots) this.drawTrace(trace, canvas);
      this.drawAxis();
    }

    prepare(canvas, height) {
      const ratio = devicePixelRatio || 1, width = this.holder.clientWidth;
      canvas.width = Math.round(width * ratio);
      canvas.height = Math.round(height * ratio);
      canvas.style.height = height + "px";
      const pen = canvas.getContext("2d");
      pen.scale(ratio, ratio);
      pen.font = "12px ui-monospace, 'DejaVu Sans Mono', monospace";
      pen.textBaseline = "middle";
      return pen;
    }

    drawTrace(trace, canvas) {
      const height = trace.kind === "int" ? 96 : trace.kind === "none" ? 24 : 40;
      const pen = this.prepare(canvas, height), {ink, faint, line, plot} = this.colours;
      pen.strokeStyle = line;
      pen.strokeRect(this.left + 0.5, 0.5, this.width(), height - 1);
      pen.save();
      pen.beginPath();
      pen.rect(this.left, 0, this.width(), height);
      pen.clip();
      if (this.cross != null) {
        pen.strokeStyle = faint;
        pen.setLineDash([3, 3]);
        segment(pen, this.x(this.cross), 0, this.x(this.cross), height);
        pen.setLineDash([]);
      }
      const xs = trace.xs[this.kind];
      const first = Math.max(0, lower(xs, this.range[0]) - 1), last = Math.min(xs.length, lower(xs, this.range[1]) + 1);
      let labels = [];
      pen.strokeStyle = pen.fillStyle = plot;
      if (trace.kind === "int") labels = this.drawNumbers(pen, trace, xs, first, last, height);
      else if (trace.kind === "truth") labels = this.drawTruth(pen, trace, xs, first, last, height);
      else this.drawTexts(pen, trace, xs, first, last, height);
      pen.restore();
      pen.fillStyle = faint;
      pen.textAlign = "right";
      const letters = Math.floor((this.left - 8) / 7.3);
      for (const [text, y] of labels) pen.fillText(text.length <= letters ? text : "…" + text.slice(1 - letters), this.left - 5, y);
      pen.fillStyle = ink;
    }

    drawNumbers(pen, trace, xs, first, last, height) {
      const value = number => Number(trace.values[trace.sequence[number]]);
      let low = Infinity, high = -Infinity, lowText = "", highText = "";
      for (let number = first; number < last; number += 1) {
        const here = value(number);
        if (here < low) { low = here; lowText = String(trace.values[trace.sequence[number]]); }
        if (here > high) { high = here; highText = String(trace.values[trace.sequence[number]]); }
      }
      if (first >= last) return [];
      const y = here => high === low ? height / 2 : 12 + (high - here) / (high - low) * (height - 24);
      if (low < 0 && high > 0) { pen.save(); pen.strokeStyle = this.colours.line; segment(pen, this.left, y(0), this.left + this.width(), y(0)); pen.restore(); }
      if (last - first > 2 * this.width()) this.drawDense(pen, xs, first, last, value, y);
      else this.drawSteps(pen, xs, first, last, value, y);
      return high === low ? [[highText, height / 2]] : [[highText, 12], [lowText, height - 12]];
    }

    drawSteps(pen, xs, first, last, value, y) {
      pen.save();
      pen.globalAlpha = 0.45;
      pen.beginPath();
      for (let number = first; number < last; number += 1) {
        const x = this.x(xs[number]), here = y(value(number));
        if (number === first) pen.moveTo(x, here);
        pen.lineTo(x, here);
        pen.lineTo(number + 1 < xs.length ? this.x(xs[number + 1]) : x + 12, here);
      }
      pen.stroke();
      pen.restore();
      for (let number = first; number < last; number += 1) {
        pen.beginPath();
        pen.arc(this.x(xs[number]), y(value(number)), 3, 0, 7);
        pen.fill();
      }
    }

    // More tokens than pixels: for each column of pixels from the least to the greatest value.
    drawDense(pen, xs, first, last, value, y) {
      let column = null, low = 0, high = 0;
      const put = () => { if (column != null) pen.fillRect(column, y(high), 1, Math.max(1, y(low) - y(high))); };
      for (let number = first; number < last; number += 1) {
        const here = value(number), x = Math.round(this.x(xs[number]));
        if (x === column) { low = Math.min(low, here); high = Math.max(high, here); }
        else { put(); column = x; low = high = here; }
      }
      put();
    }

    drawTruth(pen, trace, xs, first, last, height) {
      const y = number => trace.values[trace.sequence[number]] === "true" ? 9 : height - 9;
      pen.beginPath();
      for (let number = first; number < last; number += 1) {
        const x = this.x(xs[number]);
        if (number === first) pen.moveTo(x, y(number));
        pen.lineTo(x, y(number));
        pen.lineTo(number + 1 < xs.length ? this.x(xs[number + 1]) : x + 12, y(number));
      }
      pen.stroke();
      if (last - first < this.width() / 3) for (let number = first; number < last; number += 1) pen.fillRect(this.x(xs[number]) - 2, y(number) - 2, 4, 4);
      return [["true", 9], ["false", height - 9]];
    }

    drawTexts(pen, trace, xs, first, last, height) {
      let drawn = -Infinity;
      for (let number = first; number < last; number += 1) {
        const x = this.x(xs[number]);
        const end = number + 1 < xs.length ? this.x(xs[number + 1]) : Math.max(x + 40, this.left + this.width());
        if (end - drawn < 1.5) continue;
        drawn = end;
        pen.fillStyle = this.colours.bus;
        pen.strokeStyle = this.colours.plot;
        const wide = Math.max(1, end - x - 2);
        pen.fillRect(x, 6, wide, height - 12);
        if (wide > 2) pen.strokeRect(x + 0.5, 6.5, wide, height - 13);
        if (wide > 14) this.textWithin(pen, String(trace.values[trace.sequence[number]]).slice(0, 300), Math.max(x, this.left) + 5, height / 2, Math.min(end, this.left + this.width()) - Math.max(x, this.left) - 10);
      }
    }

    textWithin(pen, text, x, y, room) {
      const letters = Math.floor(room / 7.3);
      if (letters < 1) return;
      pen.fillStyle = this.colours.ink;
      pen.textAlign = "left";
      pen.fillText(text.length <= letters ? text : text.slice(0, Math.max(0, letters - 1)) + "…", x, y);
    }

    drawAxis() {
      const pen = this.prepare(this.axis, 26);
      pen.fillStyle = this.colours.faint;
      pen.strokeStyle = this.colours.line;
      pen.textAlign = "center";
      const marks = this.kind === "order" ? this.tagMarks() : this.timeMarks();
      for (const [at, text] of marks) {
        const x = this.x(at);
        if (x < this.left - 1 || x > this.left + this.width() + 1) continue;
        segment(pen, x, 0, x, 5);
        pen.fillText(text, x, 15);
      }
      pen.textAlign = "left";
      pen.fillText(this.kind === "order" ? "tag" : "time", 2, 15);
    }

    tagMarks() {
      const tags = this.slots.tags, first = Math.max(0, Math.ceil(this.range[0])), last = Math.min(tags.length - 1, Math.floor(this.range[1]));
      const step = Math.max(1, Math.ceil((last - first + 1) / Math.max(1, Math.floor(this.width() / 80))));
      const marks = [];
      for (let number = Math.ceil(first / step) * step; number <= last; number += step) {
        const slot = tags[number];
        marks.push([number, slot.tag + (slot.place ? " +" + slot.place : "")]);
      }
      return marks;
    }

    timeMarks() {
      const span = this.range[1] - this.range[0], wanted = span / Math.max(1, Math.floor(this.width() / 90));
      const power = Math.pow(10, Math.floor(Math.log10(wanted)));
      const step = Math.max(1, [1, 2, 5, 10].map(times => times * power).find(size => size >= wanted));
      const marks = [];
      for (let at = Math.ceil(this.range[0] / step) * step; at <= this.range[1]; at += step) if (at > -step / 2) marks.push([at, Math.round(Math.max(0, at)).toLocaleString("en")]);
      return marks;
    }
  }

  function lower(sorted, value) {
    let first = 0, last = sorted.length;
    while (first < last) {
      const middle = (first + last) >> 1;
      if (sorted[middle] < value) first = middle + 1; else last = middle;
    }
    return first;
  }

  function segment(pen, x1, y1, x2, y2) {
    pen.beginPath();
    pen.moveTo(x1, y1);
    pen.lineTo(x2, y2);
    pen.stroke();
  }

  // ---- meetings: a sequence chart, of which only the part in sight is drawn

  const SVG = "http://www.w3.org/2000/svg";
  const ROW = 28, HEAD = 34;

  function shape(name, attributes, parent, text) {
    const made = document.createElementNS(SVG, name);
    for (const [key, value] of Object.entries(attributes)) made.setAttribute(key, value);
    if (text !== undefined) made.textContent = text;
    parent.append(made);
    return made;
  }

  function chart(meetings, parent) {
    element("h3", `${meetings.path === "." ? "The top" : meetings.path}: ${meetings.rows.length.toLocaleString("en")} meetings`, parent);
    if (!meetings.rows.length) return;
    const box = element("div", undefined, parent);
    box.className = "chart";
    box.tabIndex = 0;
    const longest = Math.max(...meetings.people.map(name => name.length));
    const wide = Math.max(110, Math.min(220, longest * 7 + 20)), left = 84;
    const width = left + wide * meetings.people.length, x = number => left + wide * (number + 0.5);
    const head = shape("svg", {width, height: HEAD, class: "head"}, box);
    meetings.people.forEach((name, number) => shape("text", {x: x(number), y: 22, "text-anchor": "middle"}, head, name.length * 7 < wide ? name : name.slice(0, wide / 7 - 3) + "…"));
    const body = shape("svg", {width, height: meetings.rows.length * ROW + 10}, box);
    const show = () => {
      const first = Math.max(0, Math.floor(box.scrollTop / ROW) - 5), last = Math.min(meetings.rows.length, Math.ceil((box.scrollTop + box.clientHeight) / ROW) + 5);
      body.replaceChildren();
      meetings.people.forEach((_, number) => shape("line", {class: "life", x1: x(number), x2: x(number), y1: first * ROW, y2: last * ROW}, body));
      for (let number = first; number < last; number += 1) row(meetings.rows[number], number * ROW + ROW / 2 + 4, x, body);
    };
    box.addEventListener("scroll", show);
    show();
  }

  function row([firing, index, senders, receiver, label], y, x, body) {
    shape("text", {x: 8, y: y + 4, class: "faint"}, body, `${firing} / ${index}`);
    if (label === "barrier") {
      const all = [...senders, receiver].map(x);
      shape("line", {class: "bar", x1: Math.min(...all), x2: Math.max(...all), y1: y, y2: y}, body);
      for (const sender of senders) shape("circle", {class: "arrow", cx: x(sender), cy: y, r: 4}, body);
      shape("rect", {class: "arrow", x: x(receiver) - 5, y: y - 5, width: 10, height: 10}, body);
    } else for (const sender of senders) arrow(x(sender), x(receiver), y, body);
    const middle = senders.length ? (x(senders[0]) + x(receiver)) / 2 : x(receiver);
    shape("text", {x: middle, y: y - 6, "text-anchor": "middle"}, body, label);
  }

  function arrow(from, to, y, body) {
    if (from === to) {
      shape("path", {class: "arrow", d: `M${from},${y - 5} h26 v9 h-20`, style: "fill:none"}, body);
      shape("path", {class: "arrow", d: `M${from + 2},${y + 4} l8,-4 v8 z`}, body);
      return;
    }
    const way = Math.sign(to - from);
    shape("line", {class: "arrow", x1: from, x2: to, y1: y, y2: y}, body);
    shape("path", {class: "arrow", d: `M${to},${y} l${-9 * way},-4 v8 z`}, body);
  }

  drawingTools();
  if (data.traces.length) new Plots(data.traces);
  if (data.meetings.length) {
    document.getElementById("meetings").hidden = false;
    for (const meetings of data.meetings) chart(meetings, document.querySelector("#meetings .charts"));
  }
})();
