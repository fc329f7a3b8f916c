// In the words of old browsers: where the page's own script could not be read, this says so. It runs when all else has run.
window.onload = function () {
  if (window.ddcap) return;
  var note = document.getElementById('note');
  note.textContent = 'This browser is too old for the page, so nothing can be judged in it. A browser of 2023 or later can run it.';
  note.hidden = false;
};
