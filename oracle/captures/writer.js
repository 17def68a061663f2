// writer.js PORT: node's mqtt does what the lines of the input say (asked.py, `Action`), one after the other: the next
// one only when the broker has acknowledged the last.
const fs = require('fs')
const mqtt = require('mqtt')

let client
const called = (start) => new Promise((done, fail) => start((error) => error ? fail(error) : done()))
// Until this packet is sent: the last that answers a message which came at a QoS.
const sends = (command) => new Promise((done) => client.on('packetsend', (packet) => packet.cmd === command && done()))
const answers = { '-': null, 0: null, 1: 'puback', 2: 'pubcomp' }

const actions = {
  connect (clientId, clean, keepalive, user, password, topic, qos, retain, payload) {
    const options = { port: process.argv[2], host: '127.0.0.1', protocolVersion: 4, reconnectPeriod: 0 }
    Object.assign(options, { clientId, clean: clean === '1', keepalive: Number(keepalive) })
    if (user !== '-') options.username = user
    if (password !== '-') options.password = password
    if (topic !== '-') {
      options.will = { topic, qos: Number(qos), retain: retain === '1', payload: Buffer.from(payload, 'hex') }
    }
    client = mqtt.connect(options)
    return new Promise((done, fail) => client.once('connect', done).once('error', fail))
  },
  publish (topic, qos, retain, back, payload) {
    const options = { qos: Number(qos), retain: retain === '1' }
    const answered = answers[back] ? sends(answers[back]) : null
    return Promise.all([answered, called((done) => client.publish(topic, Buffer.from(payload, 'hex'), options, done))])
  },
  subscribe (...words) {
    const filters = {}
    for (let i = 0; i < words.length; i += 2) filters[words[i + 1]] = { qos: Number(words[i]) }
    return called((done) => client.subscribe(filters, done))
  },
  unsubscribe: (...names) => called((done) => client.unsubscribe(names, done)),
  idle: (seconds) => new Promise((done) => setTimeout(done, 1000 * seconds)),
  disconnect: () => called((done) => client.end(false, {}, done))
}

async function main () {
  for (const line of fs.readFileSync(0, 'utf8').trimEnd().split('\n')) {
    const [action, ...words] = line.split('\t')
    await actions[action](...words)
  }
}
main().catch((error) => {
  console.error(`writer.js: ${error}`)
  process.exit(1)
})
