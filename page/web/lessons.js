'use strict';
// The lessons of docs/TUTORIAL.md: their text, their pictures, and the scenarios that they open.

class Lessons {
  // `open` is given the name of an example, `go` the number of an event and the example in which it is.
  constructor(place, lessons, open, go) {
    Object.assign(this, {place, lessons, open, go, now: null, more: byId('lesson-more')});
    this.more.addEventListener('click', () => this.showWhole(!place.classList.contains('whole')));
    place.addEventListener('click', event => {
      const {example, event: number, of} = event.target.dataset;
      if (example) this.open(example); else if (number) this.go(+number, of);
    });
  }
  show(lesson) {
    this.now = lesson;
    this.place.textContent = '';
    this.place.hidden = this.more.hidden = !lesson;
    this.showWhole(false);
    if (!lesson) return;
    const head = document.createElement('h2');
    head.textContent = `${lesson.number}. ${lesson.title}`;
    this.place.append(head);
    if (lesson.examples.length) {
      const row = document.createElement('p');
      row.append('Scenario: ');
      lesson.examples.forEach(name => row.append(this.button(name.replace(/_/g, ' '), 'example', name), ' '));
      this.place.append(row);
    }
    const text = document.getElementById(`lesson-${lesson.number}`).content.cloneNode(true);
    text.querySelectorAll('img').forEach(image => this.picture(image));
    text.querySelectorAll('table').forEach(table => {
      const around = document.createElement('div');
      around.className = 'table';
      table.replaceWith(around);
      around.append(table);
    });
    text.querySelectorAll('[data-line]').forEach(span => {
      const button = this.button(span.textContent, 'event', span.dataset.line);
      button.dataset.of = span.dataset.of;
      span.replaceWith(button);
    });
    this.place.append(text);
    this.place.scrollTop = 0;
  }
  // On a phone the lesson takes little room, or all that it needs.
  showWhole(whole) {
    this.place.classList.toggle('whole', whole);
    this.more.ariaExpanded = whole;
    this.more.textContent = whole ? 'less of the lesson' : 'whole lesson';
  }
  // Heads a run with its scenario's name, and for a lecture with the lesson that is shown, where it is of this scenario.
  putHead(place, title) {
    const {now} = this, name = document.createElement('span');
    name.textContent = title.replace(/_/g, ' ');
    place.replaceChildren(name);
    if (!now || !now.examples.includes(title)) return;
    const head = document.createElement('span');
    head.className = 'of-lesson';
    head.textContent = `${now.number}. ${now.title}`;
    place.prepend(head, ' ');
    place.classList.toggle('is-one', now.examples.length === 1);
  }
  button(text, kind, value) {
    const made = document.createElement('button');
    made.textContent = text;
    made.dataset[kind] = value;
    made.className = kind;
    made.title = kind === 'event' ? `goes to the event of trace line ${value}` : `opens ${value}.txt, and runs it`;
    return made;
  }
  // A picture has no room here: a press shows it as large as the window, and no smaller than its letters can be read.
  picture(image) {
    const {alt, dataset: {picture}} = image, button = document.createElement('button'), dialog = byId('picture-dialog'), large = dialog.querySelector('img');
    Object.assign(button, {className: 'shown-larger', title: 'shows the picture as large as the window', textContent: `picture: ${alt}`});
    image.replaceWith(button);
    button.addEventListener('click', async () => {
      const src = URL.createObjectURL(new Blob([await bytesOf(document.getElementById(`picture-${picture}`).textContent)], {type: 'image/svg+xml'}));
      await new Promise(done => { Object.assign(large, {src, alt, onload: done}); });
      URL.revokeObjectURL(src);
      const {naturalWidth: wide, naturalHeight: tall} = large;
      large.style.width = `${Math.max(wide, Math.min(0.92 * innerWidth, 0.86 * innerHeight * wide / tall))}px`;
      dialog.showModal();
    });
  }
}
