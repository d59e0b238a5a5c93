// Runs the lines on standard input by node's mysql, and prints the outcome of each, with an empty line after it.
// Usage: by_node.js PORT USER PASSWORD DATABASE
const fs = require('fs');
const util = require('util');
const mysql = require('mysql');

const [port, user, password, database] = process.argv.slice(2);
const TEXTS = { '@off': 'SET autocommit = 0', '@on': 'SET autocommit = 1' };
const CALLS = { '@begin': 'beginTransaction', '@commit': 'commit', '@rollback': 'rollback', '@ping': 'ping' };

function value(it) {
  if (it === null) return 'NULL';
  // a number of JavaScript has 53 bits: its digits are those of the nearest one
  if (typeof it === 'number') return BigInt(it).toString();
  const bytes = Buffer.isBuffer(it) ? it.toString('latin1') : it;
  return "'" + bytes.replace(/[^\x20-\x7e]|['\\]/g, (found) => '\\x' + found.charCodeAt(0).toString(16).padStart(2, '0')) + "'";
}

function shown(result) {
  if (!Array.isArray(result)) return [`ok ${result.affectedRows}`];
  return [...result.map((row) => Object.values(row).map(value).join('|')), `rows ${result.length}`];
}

class Client {
  async connect() {
    this.connection = mysql.createConnection({ host: '127.0.0.1', port: Number(port), user, password, database });
    await this.call('connect');
  }

  call(name, ...words) {
    return util.promisify(this.connection[name]).apply(this.connection, words);
  }

  async run(line) {
    const bound = line.match(/^@(?:bind|typed) (\[.*?\]) (.*)$/);
    if (bound) return shown(await this.call('query', bound[2], JSON.parse(bound[1])));
    if (!CALLS[line]) return shown(await this.call('query', TEXTS[line] || line));
    await this.call(CALLS[line]);
    return ['ok 0'];
  }

  async outcome(line) {
    try {
      return await this.run(line);
    } catch (error) {
      return [refusal(error)];
    }
  }
}

function refusal(error) {
  if (!error.errno) return `ERROR ${error}`;
  return `ERROR ${error.errno} (${error.sqlState}): ${error.sqlMessage}`;
}

async function main() {
  const client = new Client();
  try {
    await client.connect();
  } catch (error) {
    console.log(refusal(error));
    process.exit(1);
  }
  let other;
  for (const line of fs.readFileSync(0, 'utf8').split('\n').slice(0, -1)) {
    let lines;
    if (line.startsWith('@other ')) {
      if (!other) await (other = new Client()).connect();
      lines = await other.outcome(line.slice(7));
      await other.outcome('COMMIT');
    } else {
      lines = await client.outcome(line);
    }
    console.log(lines.join('\n') + '\n');
  }
  client.connection.end();
  if (other) other.connection.end();
}

main();
