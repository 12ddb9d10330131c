// Pays, and asks again with the same key until there is an answer. usage: node pay.js URL TOKEN_FILE KEY AMOUNT
'use strict';

const { readFileSync } = require('node:fs');

// Returns the status of the answer, and its text.
async function pay(url, token, key, amount) {
  for (;;) {
    let wait = null;
    try {
      const answer = await fetch(`${url}/payments`, {
        method: 'POST',
        headers: { Authorization: `Bearer ${token}`, 'Idempotency-Key': key },
        body: JSON.stringify({ amount }),
        signal: AbortSignal.timeout(300_000),
      });
      const text = await answer.text();
      wait = answer.headers.get('Retry-After');
      if (answer.status < 500 && wait === null) {
        return { status: answer.status, text };
      }
    } catch {
      // no answer came
    }
    await new Promise((resume) => setTimeout(resume, 1000 * (wait ?? 1)));
  }
}

const MEANINGS = { 200: ['paid', 0], 402: ['not paid', 1], 424: ['unclear, look at the terminal', 2] };
const [url, tokenFile, key, amount] = process.argv.slice(2);
pay(url, readFileSync(tokenFile, 'utf8').trim(), key, Number(amount)).then(({ status, text }) => {
  const [word, code] = MEANINGS[status] ?? ['refused', 3];
  console.log(`${word}: ${text.trim()}`);
  process.exitCode = code;
});
