// Evaluates lines for prompted.py: one in double quotes is a statement, with \n for its line ends, another one the halves of a marker.
'use strict';
{
    const vm = require('vm'), util = require('util');
    const fault = process.env.TMHOST_ERROR;
    let stop = () => {};
    globalThis.require = require;
    process.on('SIGINT', () => stop());

    const run = text => vm.runInThisContext(text, {filename: 'line', breakOnSigint: true});
    // What begins with a brace is an object where it can be one, as at Node's own prompt.
    const evaluated = text => {
        if (/^\s*\{/.test(text) && !/;\s*$/.test(text)) {
            try { new vm.Script(`(${text})`); text = `(${text})`; } catch { /* it is a block */ }
        }
        try { new vm.Script(text); } catch (error) {
            if (!/\bawait\b/.test(text)) throw error;
            try { new vm.Script(`(async () => (${text}\n))()`); text = `(async () => (${text}\n))()`; } catch { text = `(async () => {${text}\n})()`; }
            const interrupted = new Promise((_, refuse) => { stop = () => refuse(new Error('interrupted')); });
            return Promise.race([run(text), interrupted]);
        }
        return run(text);
    };
    // Without the calls that lead to it from here.
    const told = error => {
        if (!util.types.isNativeError(error)) return util.inspect(error);
        const calls = String(error.stack).split('\n').filter(line => /^\s+at .*\bline:\d/.test(line));
        return [`${error.name}: ${error.message}`, ...calls].join('\n');
    };
    process.on('uncaughtException', error => process.stdout.write(`Uncaught ${told(error)}\n`));
    const answer = async text => {
        try {
            const value = /\bawait\b/.test(text) ? await evaluated(text) : evaluated(text);
            if (value !== undefined) { globalThis._ = value; process.stdout.write(util.inspect(value) + '\n'); }
        } catch (error) {
            process.stdout.write(`${fault}Uncaught ${told(error)}\n`);
        }
        await new Promise(resolve => setImmediate(resolve)); // what a promise that it left reports at once stands in its own answer
        stop = () => {};
    };
    let before = Promise.resolve();
    // The commands come by 3, so that what a line reads is empty.
    const lines = require('readline').createInterface({input: new (require('net').Socket)({fd: 3, readable: true}), terminal: false});
    lines.on('line', line => {
        before = before.then(() => line.startsWith('"')
            ? answer(line.slice(1, -1).replace(/\\(.)/g, (_, c) => c === 'n' ? '\n' : c))
            : process.stdout.write(line.replace(' ', '') + '\n'));
    });
    lines.on('close', () => before.then(() => process.exit()));
}
