// Asks a front of `review` for decisions, and denies where there is no answer.
//
//     const client = new Client('http://127.0.0.1:8080', {token: '..', cache: 10000})
//     if (await (await client.ask('ann', 'read', 'record-moss')).allowed(fulfil)) ..
//
// An ES module for Node 18 and later, without any other package.

export const NO_ANSWER = 'NoAnswer'
const DECISIONS = ['Permit', 'Deny', 'NotApplicable', 'Indeterminate']
const NAMES = {
  AccessSubject: 'urn:oasis:names:tc:xacml:1.0:subject:subject-id',
  Action: 'urn:oasis:names:tc:xacml:1.0:action:action-id',
  Resource: 'urn:oasis:names:tc:xacml:1.0:resource:resource-id',
}
// After which statuses a question is asked once more: there was no reply of the program.
const AGAIN = [502, 503, 504]
const PAUSE = 50

/** What was decided: `decision`, `obligations`, `advice`, `status`, `serial`, and where there is no answer `why`. */
export class Decision {
  constructor(decision, {obligations = [], advice = [], status = '', serial = -1, why = ''} = {}) {
    Object.assign(this, {decision, obligations, advice, status, serial, why})
    Object.freeze(this)
  }

  /**
   * Whether access is to be given: for a Permit each of whose obligations `fulfil(obligation)` answers by true, or a
   * promise of it. Those of another decision are handed over too. Without `fulfil` an obligation refuses.
   */
  async allowed(fulfil) {
    let allowed = this.decision === 'Permit'
    for (const one of this.obligations) {
      if (!fulfil || (await fulfil(one)) !== true) allowed = false
    }
    return allowed
  }
}

/** Asks one front. Each of two tries takes at most `timeout` milliseconds. */
export class Client {
  #base
  #head
  #timeout
  #cache

  /**
   * With `cache` answers of so many listed requests of three ids are kept, as long as `/notices` tells what changes;
   * after `silence` milliseconds without a word of it they aren't. That needs the roles read and audit.
   */
  constructor(base, {token, timeout = 2000, cache = 0, silence = 40_000} = {}) {
    const address = new URL(base)
    if (!['http:', 'https:'].includes(address.protocol)) throw new TypeError(`${base} is no address of a front`)
    this.#base = base.replace(/\/+$/, '')
    this.#head = {'Content-Type': 'application/json'}
    if (token !== undefined) this.#head.Authorization = `Bearer ${token}`
    this.#timeout = timeout
    this.sent = 0 // how many questions went to the front
    if (cache > 0) this.#cache = new Cache(this, cache, silence)
  }

  /** Ends the listening to what changes. */
  close() {
    this.#cache?.close()
  }

  /**
   * Asks whether a person may do an action to a resource. `more` has further attributes: by category (`Environment`
   * too), then by name, a value or a list of values. `atLeast` is a serial that has to be known.
   */
  async ask(person, action, resource, {more, atLeast} = {}) {
    if (this.#cache && Object.keys(more ?? {}).length === 0) {
      return this.#cache.ask([person, action, resource], atLeast)
    }
    return this.decide(requestOf([person, action, resource], more), atLeast)
  }

  /** Asks any request of one question, as the JSON Profile of XACML has it. */
  async decide(request, atLeast) {
    const {status, serial, told} = await this.send('POST', '/authorize', JSON.stringify(request), atLeast)
    if (status !== 200) return nothing(status, told)
    const results = told?.Response
    if (!Array.isArray(results) || results.length !== 1) return nothing(0, 'the response has not one result')
    const one = results[0] ?? {}
    return made(one.Decision, one.Obligations, one.AssociatedAdvice, one.Status?.StatusCode?.Value, serial)
  }

  /**
   * A middleware of the form `(request, response, next)`: `question(request)` gives `[person, action, resource]`, or
   * those and what `ask` takes besides, or null. Of who asks nothing, or isn't allowed, it answers 403, and 503 where
   * there is no answer.
   */
  guard(question, fulfil) {
    const end = (response, status, text) => {
      response.statusCode = status
      response.end(text)
    }
    return async (request, response, next) => {
      let found, allowed
      try {
        const asked = await question(request)
        if (!asked) return end(response, 403, 'not allowed\n')
        found = await this.ask(...asked)
        allowed = await found.allowed(fulfil && ((one) => fulfil(one, request)))
      } catch (error) {
        return end(response, 500, 'not allowed\n')
      }
      if (allowed) return next()
      if (found.decision === NO_ANSWER) return end(response, 503, 'no answer\n')
      return end(response, 403, 'not allowed\n')
    }
  }

  /** The status, the serial and the JSON of an answer; status 0, and why, where there is none. */
  async send(method, path, body, atLeast) {
    let answer
    for (let again = false; ; again = true) {
      if (again) await new Promise((done) => setTimeout(done, PAUSE))
      try {
        answer = await this.#sendOnce(method, path, body, atLeast)
      } catch (error) {
        answer = {status: 0, serial: -1, told: `no answer: ${error?.cause?.message ?? error}`}
      }
      if (again || (answer.status !== 0 && !AGAIN.includes(answer.status))) return answer
    }
  }

  async #sendOnce(method, path, body, atLeast) {
    this.sent += 1
    const signal = AbortSignal.timeout(this.#timeout)
    const headers = atLeast === undefined ? this.#head : {...this.#head, 'Review-At-Least': String(atLeast)}
    const answer = await fetch(this.#base + path, {method, body, headers, signal, redirect: 'manual'})
    const told = await answer.text()
    const serial = Number(answer.headers.get('Review-Serial') ?? -1)
    return {status: answer.status, serial, told: answer.status === 200 ? JSON.parse(told) : told.trim()}
  }

  /** A stream of what changes. */
  listen(signal) {
    return fetch(`${this.#base}/notices`, {headers: this.#head, signal, redirect: 'manual'})
  }
}

/**
 * Answers of listed requests, which are those of the table. One is kept if it is of a state at least as new as what was
 * told last: what changes it later is told later.
 */
class Cache {
  #client
  #most
  #silence
  #answers = new Map()
  #told = null // up to which serial changes were told; null: nobody tells
  #ending = new AbortController()

  constructor(client, most, silence) {
    this.#client = client
    this.#most = most
    this.#silence = silence
    this.#run()
  }

  close() {
    this.#ending.abort()
    this.#begin(null)
  }

  async ask(names, atLeast) {
    const key = JSON.stringify(names)
    const isFresh = this.#told !== null && (atLeast === undefined || atLeast <= this.#told)
    if (isFresh && this.#answers.has(key)) return this.#answers.get(key)
    // Of a path with such a part something else would be asked.
    if (this.#told !== null && !names.some((name) => /^\.{0,2}$/.test(name))) {
      const path = `/cells/${names.map(encodeURIComponent).join('/')}`
      const {status, serial, told} = await this.#client.send('GET', path, undefined, atLeast)
      const cell = status === 200 ? told?.cell : undefined
      if (cell && JSON.stringify([cell.person, cell.action, cell.resource]) === key) {
        const found = made(cell.decision, cell.obligations, cell.advice, cell.status, serial)
        this.#keep(key, found)
        return found
      }
    }
    // It isn't listed, or who asks may not read the table.
    return this.#client.decide(requestOf(names), atLeast)
  }

  #keep(key, found) {
    if (this.#told === null || !(found.serial >= this.#told) || found.decision === NO_ANSWER) return
    this.#answers.set(key, found)
    if (this.#answers.size > this.#most) this.#answers.delete(this.#answers.keys().next().value)
  }

  #begin(serial) {
    this.#told = serial
    this.#answers.clear()
  }

  async #run() {
    while (!this.#ending.signal.aborted) {
      const stop = new AbortController()
      const end = () => stop.abort()
      this.#ending.signal.addEventListener('abort', end)
      const silence = setTimeout(end, this.#silence)
      try {
        await this.#hear(await this.#client.listen(stop.signal), silence)
      } catch {
        // It is heard again below.
      }
      clearTimeout(silence)
      end()
      this.#ending.signal.removeEventListener('abort', end)
      this.#begin(null)
      if (!this.#ending.signal.aborted) await new Promise((done) => setTimeout(done, 1000).unref?.())
    }
  }

  async #hear(answer, silence) {
    if (answer.status !== 200) return
    let parts = []
    let event = {}
    for await (const chunk of answer.body.pipeThrough(new TextDecoderStream())) {
      silence.refresh?.()
      parts.push(chunk)
      if (!chunk.includes('\n')) continue
      const lines = parts.join('').split('\n')
      parts = [lines.pop()]
      for (const line of lines) {
        const at = line.indexOf(': ')
        if (/^(event|id|data): /.test(line)) event[line.slice(0, at)] = line.slice(at + 2)
        else if (line === '' && event.data !== undefined) {
          this.#tell(event)
          event = {}
        } else if (line !== '' && !line.startsWith(':')) return // it says why it ends
      }
    }
  }

  #tell({event, id, data}) {
    if (event !== 'notices') return this.#begin(Number(id))
    for (const one of JSON.parse(data).notices) {
      this.#answers.delete(JSON.stringify([one.person, one.action, one.resource]))
    }
    this.#told = Number(id)
  }
}

/** A request of three ids, with further attributes. */
export function requestOf(names, more = {}) {
  const asked = {}
  Object.keys(NAMES).forEach((category, at) => {
    asked[category] = {Attribute: [{AttributeId: NAMES[category], DataType: 'string', Value: names[at]}]}
  })
  for (const [category, attributes] of Object.entries(more)) {
    asked[category] ??= {Attribute: []}
    for (const [name, value] of Object.entries(attributes)) {
      asked[category].Attribute.push({AttributeId: name, Value: value})
    }
  }
  return {Request: asked}
}

/** A decision of what was answered. An Indeterminate of the table says more behind a brace. */
function made(decision, obligations, advice, status, serial) {
  const word = String(decision).split('{')[0]
  if (!DECISIONS.includes(word)) return nothing(0, `the decision ${JSON.stringify(decision)} is none`)
  const code = String(status ?? '').split(':').pop()
  return new Decision(word, {obligations: obligations ?? [], advice: advice ?? [], status: code, serial})
}

/** What stands for a decision where there is none. */
function nothing(status, told) {
  return new Decision(NO_ANSWER, {why: status ? `${status} ${told}` : String(told)})
}
