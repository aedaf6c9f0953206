"""How the page looks, and how its table is sorted and filtered."""

STYLE = """
:root { --correct: #2f855a; --corrected: #3182ce; --none: #d69e2e; --refused: #c05621; --spent: #805ad5; --unread: #718096 }
body { font: 16px/1.45 system-ui, sans-serif; color: #1a202c; max-width: 76rem; margin: 2rem auto; padding: 0 1rem }
h1 { font-size: 1.6rem } h2 { font-size: 1.2rem; margin: 2rem 0 .5rem } h3 { font-size: .9rem; margin: .25rem 0; color: #4a5568 }
.bar { display: flex; height: 2.2rem; border-radius: 4px; overflow: hidden }
.part { color: #fff; text-align: center; line-height: 2.2rem; min-width: 1.6rem; flex-basis: 0 }
.keys { display: flex; flex-wrap: wrap; gap: .3rem 1.2rem; margin: .5rem 0 }
.dot { display: inline-block; width: .75em; height: .75em; border-radius: 50%; margin-right: .4em }
.correct { background: var(--correct) } .corrected { background: var(--corrected) } .none { background: var(--none) }
.refused { background: var(--refused) } .spent { background: var(--spent) } .unread { background: var(--unread) }
table { border-collapse: collapse; width: 100% }
th { text-align: left; border-bottom: 2px solid #cbd5e0; padding: .3rem .6rem; font-size: .9rem }
td { border-bottom: 1px solid #e2e8f0; padding: .35rem .6rem; vertical-align: top; overflow-wrap: anywhere }
th button { font: inherit; font-weight: 600; border: 0; background: none; padding: 0; cursor: pointer }
th button::after { content: ' \\2195'; color: #a0aec0 }
.count { text-align: right; font-weight: 600; width: 4rem }
ul { margin: 0; padding-left: 1.1rem } td p { margin: 0 0 .4rem } .counted pre { margin-bottom: .5rem } code, .cause { white-space: nowrap } .of { color: #4a5568; font-size: .9rem }
pre { font: 13px/1.4 ui-monospace, monospace; background: #f7fafc; padding: .5rem; margin: 0; overflow-x: auto }
tr.head { cursor: pointer } tr.head:hover, tr.head:focus { background: #edf2f7; outline: 0 }
.entry .body { display: none } .entry.open .body { display: table-row } .entry[hidden] { display: none }
.beside { display: grid; grid-template-columns: 1fr 1fr; gap: 1rem } .beside > div { min-width: 0 }
.row { display: block; min-height: 1.4em } .row i { color: #a0aec0; display: inline-block; width: 2.2rem; font-style: normal }
.marked { background: #fefcbf; box-shadow: inset 3px 0 #d69e2e }
.source { padding: .5rem 0 .5rem .5rem } details { margin-top: .6rem } summary { cursor: pointer; color: #2b6cb0 }
.filter { display: flex; flex-wrap: wrap; gap: .4rem 1rem; align-items: center } #find { padding: .3rem; width: 18rem }
#shown { color: #4a5568 } a { color: #2b6cb0 }
@media (max-width: 50rem) { .beside { grid-template-columns: 1fr } }
"""

SCRIPT = """
const table = document.getElementById('entries');
const entries = [...table.querySelectorAll('.entry')];
const boxes = [...document.querySelectorAll('.filter input[type=checkbox]')];
const find = document.getElementById('find');
const shown = document.getElementById('shown');
let key = 'place', down = false;

function show() {
  const kinds = new Set(boxes.filter(box => box.checked).map(box => box.value));
  const text = find.value.toLowerCase();
  let count = 0;
  for (const entry of entries) {
    const fits = kinds.has(entry.dataset.kind) && entry.textContent.toLowerCase().includes(text);
    entry.hidden = !fits;
    count += fits;
  }
  shown.textContent = count + ' of ' + entries.length;
}

function value(entry) {
  if (key === 'file') return entry.dataset.file;
  if (key === 'line') return entry.querySelector('.head').lastElementChild.textContent;
  return Number(entry.dataset[key]);
}

function sort(next) {
  down = next === key && !down;
  key = next;
  const sign = down ? -1 : 1;
  entries.sort((a, b) => {
    const x = value(a), y = value(b);
    return (x < y ? -sign : x > y ? sign : Number(a.dataset.place) - Number(b.dataset.place));
  });
  for (const entry of entries) table.append(entry);
}

function open() {
  const entry = entries.find(entry => '#' + entry.id === location.hash);
  if (!entry) return;
  entry.hidden = false;
  entry.classList.add('open');
  entry.scrollIntoView();
}

for (const entry of entries) {
  const head = entry.querySelector('.head');
  head.addEventListener('click', () => entry.classList.toggle('open'));
  head.addEventListener('keydown', event => { if (event.key === 'Enter') entry.classList.toggle('open'); });
}
for (const button of table.querySelectorAll('th button')) button.addEventListener('click', () => sort(button.dataset.key));
for (const box of boxes) box.addEventListener('change', show);
find.addEventListener('input', show);
window.addEventListener('hashchange', open);
show();
open();
"""
