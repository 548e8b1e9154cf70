"""Scripts that tools/check-editor runs in the page of examples/editor: what is counted there, and what is read from its pixels."""
from cupdaisy.film import BITS, HEIGHT, ROWS

# The number that stands in a picture, by the pixels of a canvas: of each square three, as a line may stand over one.
NUMBER = """
const number = (canvas, [x, y, width, height]) => {
  const ratio = canvas.width / canvas.clientWidth, row = Math.round((y + height * %f) * ratio), pen = canvas.getContext('2d');
  const isLight = (at) => {
    const [red, green, blue] = pen.getImageData(Math.round((x + width * at / %d) * ratio), row, 1, 1).data;
    return red + green + blue > 384;
  };
  return Array.from({length: %d}, (_, bit) => [0.2, 0.5, 0.8].filter((at) => isLight(bit + at)).length > 1)
    .reduce((sum, is, bit) => sum + (is ? 2 ** bit : 0), 0);
};
""" % ((HEIGHT - ROWS / 2) / HEIGHT, BITS, BITS)
THUMBNAILS = NUMBER + """
return editor.timeline.thumbnails().filter(({place, x, width}) => editor.stream.isValid(place) && x >= 0 && x + width < editor.view.width)
  .map((box) => [editor.stream.ids[box.place], number(editor.timeline.canvas, [box.x, box.y, box.width, box.height])]);
"""
SETTLED = """return !editor.isDue && !editor.pictures.needed().length && !editor.pictures.making.size && editor.pictures.ids
  .every((id) => editor.pictures.names.has(id))"""
FORESEEN = "return document.getElementById('foreseen').textContent.includes(arguments[0])"
VIEWED = NUMBER + "return number(editor.viewer.canvas, editor.viewer.box)"
PLAYED = NUMBER + """
const done = arguments[1], seen = [];
editor.player.toggle();
const look = () => {
  const found = editor.viewer.shown === null ? seen.at(-1) : number(editor.viewer.canvas, editor.viewer.box);
  if (found !== seen.at(-1)) seen.push(found);
  if (seen.length < arguments[0]) return requestAnimationFrame(look);
  editor.player.toggle();
  done(seen);
};
requestAnimationFrame(look);
"""
WHEEL = """editor.timeline.canvas.dispatchEvent(new WheelEvent('wheel',
  {deltaY: arguments[0], ctrlKey: arguments[1], clientX: 600, clientY: 500, bubbles: true, cancelable: true}))"""
SCROLLED = """
const done = arguments[0], frames = [];
let before = null, left = 120;
editor.slow = [];
const look = (now) => {
  if (before !== null) frames.push(now - before);
  before = now;
  editor.view.first += editor.view.count / 6;
  editor.view.clamp(editor.stream.length);
  editor.look();
  if (left-- > 0) return requestAnimationFrame(look);
  const sorted = (list) => [...list].sort((one, other) => one - other);
  const told = (list) => [sorted(list)[list.length >> 1], Math.max(...list)];
  done([told(frames), told(editor.slow)]);
};
requestAnimationFrame(look);
"""
COUNTS = {
    "units": "editor.stream.length",
    "faults": "editor.stream.faults.size",
    "doubts": "[...editor.stream.follows.values()].filter(({doubt}) => doubt).length",
    "altered": "editor.stream.altered.length",
    "cursor": "editor.stream.ids[editor.cursor]",
    "chosen": "editor.chosen ? editor.chosen.to - editor.chosen.from : 0",
    "undo": "editor.stream.undo",
    "asked": "document.getElementById('question').open",
    "wrong": "document.querySelector('#told.wrong')?.textContent ?? ''",
}
