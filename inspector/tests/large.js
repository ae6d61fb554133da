// A large report that is right: one surface with a list, 16 actors, 2,048 steps.
'use strict';

const VIEWS = 330;

function report(bytes) {
  const actors = Array.from({ length: 16 }, (_, i) => ({ name: `actor-${i}`, steps: [] }));
  const commits = [];
  const mounts = [];
  const view = (i, round) => `view frame 0 ${(i * 40 + round) % 20000} 320 40 left=0 top=${i * 40} width=320 height=40 background=${4278190080 + round}`;
  const steps = 2048 / 2;
  // Each line is about 90 bytes, so that all mounts together come to the size asked for.
  const updates = Math.min(VIEWS, Math.floor(bytes / steps / 90));
  const rounds = Array.from({ length: VIEWS }, () => 0);
  for (let n = 1; n <= steps; n++) {
    const actor = actors[n % 16];
    commits.push(`commit ${n} ${actor.name} ${actor.steps.length} ${n === 1 ? 'complete' : 'props'} held ${n - 1}`);
    actor.steps.push(`on 1 admitted ${n} tries ${1 + n % 3}`);
    const lines = [`transaction ${n - 1} ${n} by ${actor.name} ${actor.steps.length}`];
    actor.steps.push(`on 1 mounted ${n - 1} ${n}`);
    for (let i = 0; i < (n === 1 ? VIEWS : updates); i++) {
      rounds[i] = n;
      lines.push(`${n === 1 ? 'create' : 'update'} ${i + 2} ${view(i, n)}`);
    }
    if (n === 1) for (let i = 0; i < VIEWS; i++) lines.push(`insert 0 ${i + 2} ${i}`);
    mounts.push(lines.join('\n'));
  }
  const last = rounds.map((round, i) => `view ${i + 2} in 0 at ${i} ${view(i, round)}`);
  const answers = actors.map((actor) => [`actor ${actor.name}`, ...actor.steps.map((step, call) => `step ${call} ${step}`)].join('\n'));
  return ['report 1', 'surface 1', ...commits, ...answers, 'mounts 1', ...mounts, 'views 1', ...last, 'end', ''].join('\n');
}

module.exports = { report };
