// Writes inspector/examples.js of the reports in examples/, or gives what it should hold.
'use strict';
const fs = require('fs');
const path = require('path');

const root = path.join(__dirname, '..', '..');
const file = path.join(__dirname, '..', 'examples.js');

// The reports of runs: NAME.report. NAME.WORDS.report is what other words print.
function reports() {
  const names = fs.readdirSync(path.join(root, 'examples')).filter((name) => name.endsWith('.report')).sort();
  return names.map((name) => ({ name: name.slice(0, -7), bytes: fs.readFileSync(path.join(root, 'examples', name)) }));
}

function text() {
  const runs = reports().filter(({ name }) => !name.includes('.'));
  const entries = runs.map(({ name, bytes }) => `{ name: ${JSON.stringify(name)}, report: String.raw\`${bytes.toString('latin1')}\` },\n`);
  return `// The reports of examples/, so that the page has them without a server. \`node inspector/tests/examples.js\` writes this file.\n(globalThis.fabric ??= {}).examples = [\n${entries.join('')}];\n`;
}

module.exports = { file, reports, text };
if (require.main === module) fs.writeFileSync(file, text());
