// Tells of the byte below the pointer each variable that has it, with its element and both values.
const size = { UD: 4, D: 4, F: 4, UW: 2, W: 2, UB: 1, B: 1, UQ: 8 };
function value(type, bytes) {
  const hex = '0x' + [...bytes].reverse().join(''), bits = 8 * size[type];
  if (type == 'F') return hex;
  return (/^[DWB]$/.test(type) ? BigInt.asIntN(bits, BigInt(hex)) : BigInt(hex)) + ' (' + hex + ')';
}
function told(row, byte) {
  const start = parseInt(row.textContent), bench = row.textContent.slice(6).split(' '), card = [...bench], lines = [];
  for (const [, at, other] of (row.dataset.c || '').matchAll(/(\d+):(..)/g)) card[at - start] = other;
  const both = show => show(bench) == show(card) ? show(bench) : 'bench ' + show(bench) + ', card ' + show(card);
  row.parentNode.dataset.v.split(',').forEach((variable, number) => {
    const [type, first, count] = variable.split(' '), element = Math.floor((byte - first) / size[type]);
    if (!(element >= 0 && element < count)) return;
    const place = +first + element * size[type], at = place - start;
    lines.push(`v${number}[${element}] ${type} at byte ${place}: ` + both(bytes => value(type, bytes.slice(at, at + size[type]))));
  });
  return lines.join('\n') || `byte ${byte}, in no variable: ` + both(bytes => '0x' + bytes[byte - start]);
}
document.addEventListener('mousemove', event => {
  const tip = document.getElementById('tip'), row = event.target.closest('.map p');
  const box = row && row.getBoundingClientRect();
  const index = row ? Math.floor(((event.clientX - box.left) / box.width * 102 - 5.5) / 3) : -1;
  if (!row || index < 0 || index > 31) return tip.style.display = 'none';
  tip.textContent = told(row, parseInt(row.textContent) + index);
  tip.style.display = 'block';
  tip.style.left = Math.min(event.clientX + 14, innerWidth - tip.offsetWidth - 4) + 'px';
  tip.style.top = Math.min(event.clientY + 16, innerHeight - tip.offsetHeight - 4) + 'px';
});
