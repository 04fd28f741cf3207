// Runs inside of the page: points at the pixels that were asked for, reads the panel, and leaves what it read as JSON in the document.
(() => {
  const asked = JSON.parse(document.getElementById('asked').textContent), read = {told: [], blocks: [], pictures: {}, faults: []};
  const by = id => document.getElementById(id), stage = by('stage');
  const fault = why => read.faults.push(why);
  const point = (type, x, y) => {
    const area = stage.getBoundingClientRect(), place = {clientX: area.left + (x + 0.5) * area.width / asked.width,
      clientY: area.top + (y + 0.5) * area.height / asked.height, bubbles: true, cancelable: true};
    stage.dispatchEvent(new PointerEvent(type, place));
  };
  const press = (key, shiftKey) => stage.dispatchEvent(new KeyboardEvent('keydown', {key, shiftKey, bubbles: true, cancelable: true}));
  const type = (x, y) => {
    by('x').value = x;
    by('y').value = y;
    by('x').dispatchEvent(new Event('change'));
  };
  const isAt = (x, y) => +by('x').value === x && +by('y').value === y;

  // Five ways to a pixel: the pointer, a click that holds it, the two numbers, an arrow key, and an arrow key with Shift.
  const ways = [
    (x, y) => { press('Escape'); point('pointermove', x, y); },
    (x, y) => { press('Escape'); point('click', x, y); point('pointermove', 0, 0); },
    (x, y) => type(x, y),
    (x, y) => { if (x) { type(x - 1, y); press('ArrowRight'); } else { type(x, Math.min(y + 1, asked.height - 1)); if (!isAt(x, y)) press('ArrowUp'); } },
    (x, y) => { if (y >= 16) { type(x, y - 16); press('ArrowDown', true); } else if (x + 16 < asked.width) { type(x + 16, y); press('ArrowLeft', true); } else type(x, y); }];
  asked.pixels.forEach(([x, y], i) => {
    ways[i % ways.length](x, y);
    if (!isAt(x, y)) fault(`way ${i % ways.length} to ${x} ${y} leads to ${by('x').value} ${by('y').value}`);
    read.told.push(by('told').textContent);
    if (by('told').textContent.split('\n')[0] !== by('summary').textContent) fault('the summary is another line');
  });
  type(0, 0);
  press('ArrowLeft');
  press('ArrowUp');
  if (!isAt(0, 0)) fault('an arrow key leads out of the picture');
  for (let y = 0; y < asked.height; y += 16)
    for (let x = 0; x < asked.width; x += 16) {
      type(x, y);
      read.blocks.push([...by('block').children].map(child => child.textContent));
    }

  // A CRC-32 of the first part of every sample, for each choice.
  const table = Array.from({length: 256}, (_, n) => { for (let k = 0; k < 8; k++) n = n & 1 ? 0xEDB88320 ^ n >>> 1 : n >>> 1; return n; });
  const picture = () => {
    const canvas = by('samples'), scale = canvas.width / asked.width, data = canvas.getContext('2d').getImageData(0, 0, canvas.width, canvas.height).data;
    let crc = -1;
    for (let y = 0; y < asked.height; y++)
      for (let x = 0; x < asked.width; x++)
        for (let part = 0; part < 3; part++) crc = table[(crc ^ data[4 * (y * scale * canvas.width + x * scale) + part]) & 255] ^ crc >>> 8;
    return ~crc >>> 0;
  };
  const lettered = () => by('letters').getContext('2d').getImageData(0, 0, by('letters').width, by('letters').height).data.some(part => part);
  for (const shown of document.querySelectorAll('input[name=shown]'))
    for (const tint of document.querySelectorAll('input[name=tint]')) {
      shown.click();
      tint.click();
      read.pictures[`${shown.value} ${tint.value}`] = {crc: picture(), lettered: lettered(), legend: by('legend').textContent};
    }
  for (const control of [...document.querySelectorAll('input'), stage, by('told')]) {
    control.focus();
    if (document.activeElement !== control) fault('a control cannot be focused');
    if (control.tagName === 'INPUT' && !control.labels.length) fault('a control has no label');
  }
  const left = document.createElement('pre');
  left.id = 'read';
  left.textContent = JSON.stringify(read);
  document.body.append(left);
})();
