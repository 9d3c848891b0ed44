// Tries the client: node try_client.mjs ADDRESS, at which a front answers that was told the clinic's lines.
import assert from 'node:assert/strict'
import http from 'node:http'
import {Client, Decision, NO_ANSWER, requestOf} from './review_client.mjs'

const BASE = process.argv[2]
const PATIENCE = 120_000
const KEY = ['hana', 'write', 'record-moss']
const opened = []

const over = (base, options) => {
  const client = new Client(base, options)
  opened.push(client)
  return client
}
const real = (options) => over(BASE, {timeout: 60_000, ...options})

/** What the front answers a path, by POST where something is sent. */
const call = async (path, what) => {
  const answer = await fetch(BASE + path, what && {method: 'POST', body: JSON.stringify(what)})
  assert.equal(answer.status, 200)
  return answer.json()
}

/** Sets the role of hana, and gives the edit's serial. */
const setRole = async (role) => {
  const row = {category: 'AccessSubject', entity: 'hana', attribute: 'role', type: 'string', values: [role]}
  return (await call('/commands/attr.set', row)).serial
}

const eventually = async (what, isSo) => {
  for (const until = Date.now() + PATIENCE; Date.now() < until; await new Promise((done) => setTimeout(done, 10))) {
    if (await isSo()) return
  }
  assert.fail(`it doesn't come to be so: ${what}`)
}

/** Whether a question that was just asked isn't sent again. */
const keeps = async (client, key = KEY) => {
  await client.ask(...key)
  const sent = client.sent
  await client.ask(...key)
  return client.sent === sent
}

/** A front that answers as a function says. */
const fake = async (answer) => {
  const server = http.createServer((request, response) => {
    request.resume().on('end', () => answer(request, response))
  })
  await new Promise((done) => server.listen(0, '127.0.0.1', done))
  opened.push({close: () => (server.close(), server.closeAllConnections())})
  return `http://127.0.0.1:${server.address().port}`
}

const sends = (response, status, what, serial = 7) => {
  response.writeHead(status, {'Review-Serial': String(serial)})
  response.end(typeof what === 'string' ? what : JSON.stringify(what))
}

const PERMIT = {Response: [{Decision: 'Permit', Status: {StatusCode: {Value: 'a:ok'}}}]}

const tests = {
  async 'cells are answered as the table says, with and without a cache'() {
    const {table} = await call('/table')
    assert.ok(table.length > 0)
    for (const client of [real(), real({cache: 1000})]) {
      for (const cell of table.filter((_, at) => at % 7 === 0)) {
        const {serial, ...found} = await client.ask(cell.person, cell.action, cell.resource)
        assert.deepEqual(found, {
          decision: cell.decision.split('{')[0],
          obligations: cell.obligations,
          advice: cell.advice,
          status: cell.status,
          why: '',
        })
      }
    }
  },

  async 'obligations are handed over, and who fulfils none lets nobody in'() {
    const found = await real().ask('ada', 'break-glass', 'record-moss')
    const given = []
    assert.equal(await found.allowed(async (one) => given.push(one.Id) > 0), true)
    assert.deepEqual(given, ['tell-the-privacy-officer'])
    for (const fulfil of [undefined, () => false, () => undefined, async () => 1]) {
      assert.equal(await found.allowed(fulfil), false)
    }
    const denied = new Decision('Deny', {obligations: [{Id: 'a'}]})
    assert.equal(await denied.allowed((one) => given.push(one.Id) > 0), false)
    assert.deepEqual(given, ['tell-the-privacy-officer', 'a'])
  },

  async 'further attributes go with a question'() {
    const asked = requestOf(['a', 'b', 'c'], {Environment: {n: [1, 2]}, Action: {urgent: true}}).Request
    assert.deepEqual(asked.Environment, {Attribute: [{AttributeId: 'n', Value: [1, 2]}]})
    assert.deepEqual(asked.Action.Attribute[1], {AttributeId: 'urgent', Value: true})
    const found = await real().ask('new', 'read', 'record-moss', {more: {AccessSubject: {role: ['doctor']}}})
    assert.notEqual(found.decision, NO_ANSWER)
    assert.match((await real().decide({Request: 7})).why, /^400 /)
  },

  async 'who asks for the serial of his own edit is answered of a state that has it'() {
    const atLeast = await setRole('trainee')
    const found = await real().ask(...KEY, {atLeast})
    assert.ok(found.serial >= atLeast && found.decision === 'Deny')
    const late = await over(BASE, {timeout: 200}).ask(...KEY, {atLeast: atLeast + 1_000_000})
    assert.equal(late.decision, NO_ANSWER)
    assert.equal(await late.allowed(() => true), false)
  },

  async 'kept answers are not asked for, and change with the table'() {
    const client = real({cache: 100})
    for (const role of ['trainee', 'doctor', 'trainee', 'doctor']) {
      await setRole(role)
      const {cell} = await call('/cells/hana/write/record-moss')
      await eventually('the answer is the cell', async () => (await client.ask(...KEY)).decision === cell.decision)
      await eventually('the answer is kept', () => keeps(client))
    }
    const atLeast = await setRole('trainee')
    assert.ok((await client.ask(...KEY, {atLeast})).serial >= atLeast)
    for (const name of ['nobody/else', '..', '']) {
      assert.equal(await keeps(client, [name, 'write', 'record-moss']), false)
    }
    const sent = client.sent
    await client.ask('..', '..', 'table') // no path is another's
    assert.equal(client.sent, sent + 1)
    assert.equal(await keeps(client, [...KEY, {more: {Environment: {n: 1}}}]), false)
  },

  async 'what is guarded is passed on where it is allowed'() {
    const asked = (request) => request.user && [request.user, 'break-glass', 'record-moss']
    const fails = () => {
      throw new Error('no')
    }
    for (const [client, user, question, fulfil, want] of [
      [real(), 'ada', asked, () => true, 200], [real(), 'ada', asked, undefined, 403],
      [real(), 'ada', asked, fails, 500],
      [real(), 'nobody', asked, () => true, 403], [real(), '', asked, () => true, 403],
      [real(), 'ada', fails, () => true, 500], [over('http://127.0.0.1:1'), 'ada', asked, () => true, 503],
    ]) {
      const response = {statusCode: 0, end() {}}
      await client.guard(question, fulfil)({user}, response, () => (response.statusCode = 200))
      assert.equal(response.statusCode, want)
    }
  },

  async 'what has no answer is asked once more, and denied'() {
    const answers = (...all) => fake((_, response) => sends(response, ...(all.length > 1 ? all.shift() : all[0])))
    for (const [base, sent, allowed] of [
      ['http://127.0.0.1:1', 2, false], [await fake(() => {}), 2, false],
      [await answers([503, 'later'], [200, PERMIT]), 2, true], [await answers([503, 'later']), 2, false],
      [await answers([401, PERMIT]), 1, false], [await answers([302, PERMIT]), 1, false],
      [await answers([200, {Response: []}]), 1, false], [await answers([200, {Response: [null]}]), 1, false],
      [await answers([200, {Response: [{Decision: 'Yes'}]}]), 1, false], [await answers([200, 'no JSON']), 2, false],
      [await answers([200, 7]), 1, false], [await answers([200, PERMIT]), 1, true],
    ]) {
      const client = over(base, {timeout: allowed ? 60_000 : 500})
      const found = await client.ask('a', 'b', 'c')
      assert.equal(await found.allowed(() => true), allowed)
      assert.equal(client.sent, sent, found.why)
      if (!allowed) assert.ok(found.decision === NO_ANSWER && found.why !== '')
    }
  },

  async 'what is told of changes is heard'() {
    let stream, serial = 7
    const base = await fake((request, response) => {
      const [, first, person, action, resource] = request.url.split('/')
      if (first === 'notices') {
        stream = response.writeHead(200)
        stream.flushHeaders()
      } else if (first === 'cells') sends(response, 200, {cell: {person, action, resource, decision: 'Permit'}}, serial)
      else sends(response, 200, PERMIT, serial)
    })
    const client = over(base, {cache: 2, timeout: 60_000})
    const [a, d] = [['a', 'b', 'c'], ['d', 'b', 'c']]
    for (const end of [(it) => it.end(), (it) => it.write('{"status":401}\n')]) {
      await eventually('somebody listens', () => stream)
      assert.equal(await keeps(client, a), false)
      stream.write('event: from\nid: 7\nda')
      stream.write('ta: {"serial":7}\n\n')
      await eventually('answers are kept', () => keeps(client, a))
      const before = stream
      stream = undefined
      end(before)
      await eventually('none is kept', async () => !(await keeps(client, a)))
    }
    await eventually('somebody listens', () => stream)
    stream.write('event: from\nid: 5\ndata: {"serial":5}\n\n')
    await eventually('answers are kept', async () => (await keeps(client, a)) && (await keeps(client, d)))
    let sent = client.sent
    await client.ask(...a, {atLeast: 5})
    assert.equal(client.sent, sent)
    await client.ask(...a, {atLeast: 6})
    assert.equal(client.sent, ++sent)
    stream.write(':\n\nevent: notices\nid: 6\ndata: {"notices":[{"person":"a","action":"b","resource":"c"}]}\n\n')
    await eventually('a change is heard', async () => (await client.ask(...a), client.sent === sent + 1))
    assert.ok((await keeps(client, d)) && client.sent === sent + 1)
    stream.write('event: anew\nid: 7\ndata: {"serial":7}\n\n')
    await eventually('that all is new is heard', async () => (await client.ask(...d), client.sent > sent + 1))
    serial = 6
    assert.equal(await keeps(client, a), false)
  },
}

let failed = 0
for (const [name, test] of Object.entries(tests)) {
  try {
    await test()
  } catch (error) {
    failed += 1
    console.log(`${name}: ${error.stack}`)
  }
}
for (const one of opened) one.close()
process.exitCode = failed > 0 ? 1 : 0
