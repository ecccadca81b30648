"use strict";
// Pictures over time: curves of signals, and who held which address.

const MARGIN = { left: 64, right: 12, top: 10, bottom: 24 }, BAND = 180, ROW = 22, LABEL_WIDTH = 110;

/** A context of a canvas in the page's colours, cleared, with its size in CSS pixels. */
function pictureOf(canvas, height) {
  const width = canvas.parentElement.clientWidth || 800, scale = devicePixelRatio || 1, context = canvas.getContext("2d");
  canvas.width = width * scale;
  canvas.height = height * scale;
  canvas.style.height = `${height}px`;
  context.scale(scale, scale);
  context.font = "12px sans-serif";
  context.fillStyle = context.strokeStyle = getComputedStyle(canvas).color;
  return { context, width, height };
}

const colourOf = (number, count) => `hsl(${Math.round((360 * number) / count)} 70% ${matchMedia("(prefers-color-scheme: dark)").matches ? 65 : 40}%)`;

/** Places of numbers between two on a line of pixels. */
const scaleOf = (low, high, from, to) => (value) => from + ((to - from) * (value - low)) / (high - low || 1);

/** Least and greatest of many numbers. */
function extent(numbers, start = [Infinity, -Infinity]) {
  return numbers.reduce(([low, high], it) => [Math.min(low, it), Math.max(high, it)], start);
}

/** Draws signals one below the other, each with a scale of its own and a curve for each unit that sent it, and returns what is drawn in words. */
function drawCurves(canvas, curves) {
  const shown = curves.filter(({ lines }) => lines.length), { context, width } = pictureOf(canvas, shown.length * BAND), told = [];
  const times = shown.flatMap(({ lines }) => lines).reduce((all, line) => extent(line.times, all), [Infinity, -Infinity]);
  shown.forEach(({ group, signal, lines }, band) => {
    const values = lines.reduce((all, line) => extent(line.values, all), [Infinity, -Infinity]), top = band * BAND;
    const x = scaleOf(...times, MARGIN.left, width - MARGIN.right), y = scaleOf(...values, top + BAND - MARGIN.bottom, top + MARGIN.top);
    drawAxes(context, width, top, times, values);
    lines.forEach((line, number) => {
      const colour = colourOf(number + band, lines.length + shown.length);
      drawLine(context, line, x, y, colour);
      told.push({ text: `${group}.${signal} of ${line.unit}: ${line.values.length} values, ${extent(line.values).join(" to ")}`, colour });
    });
  });
  return told;
}

function drawAxes(context, width, top, times, values) {
  const bottom = top + BAND - MARGIN.bottom, right = width - MARGIN.right;
  context.strokeStyle = context.fillStyle;
  context.strokeRect(MARGIN.left, top + MARGIN.top, right - MARGIN.left, bottom - top - MARGIN.top);
  context.fillText(`${times[0].toFixed(3)} s`, MARGIN.left, bottom + 16);
  context.textAlign = "right";
  context.fillText(`${times[1].toFixed(3)} s`, right, bottom + 16);
  context.fillText(String(values[1]), MARGIN.left - 6, top + MARGIN.top + 10);
  context.fillText(String(values[0]), MARGIN.left - 6, bottom);
  context.textAlign = "left";
}

/** Draws one curve: of many values in one column of pixels the least and the greatest. */
function drawLine(context, { times, values }, x, y, colour) {
  context.strokeStyle = colour;
  context.beginPath();
  let column = null, low = 0, high = 0, last = 0;
  const flush = () => column === null || (context.lineTo(column, y(low)), context.lineTo(column, y(high)), context.lineTo(column, y(last)));
  times.forEach((time, index) => {
    const at = Math.round(x(time)), value = values[index];
    if (at !== column) {
      flush();
      if (column !== null) context.lineTo(at, y(last));
      [column, low, high] = [at, value, value];
    }
    [low, high, last] = [Math.min(low, value), Math.max(high, value), value];
  });
  flush();
  context.stroke();
}

/** Spans of time in which units held addresses: from a claim to the unit's next one, or that of another unit of the same address, or the end. */
function heldSpans(claims, end) {
  const held = new Map(), spans = [];
  const leave = (unit, time) => {
    if (held.has(unit)) spans.push({ unit, ...held.get(unit), to: time });
    held.delete(unit);
  };
  for (const { time, unit, address } of claims) {
    for (const [other, span] of held) if (other === unit || span.address === address) leave(other, time);
    if (address !== null) held.set(unit, { address, from: time });
  }
  for (const unit of [...held.keys()]) leave(unit, end);
  return spans.sort((one, other) => one.from - other.from);
}

/** Draws who held which address when, a row a unit. */
function drawAddresses(canvas, spans, first, last) {
  const units = [...new Set(spans.map(({ unit }) => unit))], { context, width } = pictureOf(canvas, units.length ? units.length * ROW + MARGIN.bottom : 0);
  const x = scaleOf(first, last, LABEL_WIDTH, width - MARGIN.right);
  units.forEach((unit, row) => context.fillText(unit, 0, row * ROW + 15, LABEL_WIDTH - 6));
  for (const { unit, address, from, to } of spans) {
    const left = x(from), top = units.indexOf(unit) * ROW + 3, size = Math.max(x(to) - left, 2);
    context.fillStyle = colourOf(address % 16, 16);
    context.fillRect(left, top, size, ROW - 6);
    context.fillStyle = getComputedStyle(canvas).backgroundColor;
    if (size > 24) context.fillText(String(address), left + 4, top + 12);
  }
}
