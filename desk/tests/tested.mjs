// A test of node's, or where FIRST is set one that ends all at the first failure: wrong.py asks no more than whether a wrong change is seen.
import own from 'node:test';

function first(name, body) {
  try {
    body();
  } catch (error) {
    console.log(`not ok - ${name}: ${String(error.message ?? error).split('\n')[0]}`);
    process.exit(1);
  }
}

export default process.env.FIRST ? first : own;
