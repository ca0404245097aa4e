'use strict';
// A page of tcpsim-replay: reads the trace that it holds, and shows it.

(async () => {
  const facts = JSON.parse(document.getElementById('facts').textContent);
  const begun = performance.now();
  try {
    const record = new Record(facts);
    await fill(record, unpacked(document.getElementById('trace').textContent));
    window.page = await Page.of(record);
    document.documentElement.dataset.ready = Math.round(performance.now() - begun);
  } catch (wrong) {
    document.getElementById('notice').textContent = `This browser cannot show the page: ${wrong.message}`;
    document.documentElement.dataset.failed = wrong.stack || wrong.message;
  }
})();
