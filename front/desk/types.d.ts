// What the desk's modules tell each other, for the type checker alone: no browser reads this file.

type List = 'people' | 'actions' | 'resources';

interface Entry { path: [string, string, string][]; rule: string | null }

interface Given { Id: string; AttributeAssignment: { AttributeId: string; Value: unknown }[] }

interface Answer { decision: string; status: string; why: Entry[]; obligations: Given[]; advice: Given[] }

interface Cell extends Answer { person: string; action: string; resource: string }

interface Change { person: string; action: string; resource: string; before: string | null; after: string | null }

interface Edit {
  by: string; changed: Change[] | null; changes: number; entity: string; kind: string; line: any; more: number;
  serial: number; time: string;
}

interface Range { after: number; last: number }

interface Fact { attribute: string; datatype: string; issuer: string | null; module: number; values: unknown[] }

interface Heading {
  attribute: string; datatype: string; issuer: string | null; module: number; values: {
    at: number[]; value: unknown }[];
}

// Some of a list: a run of places, or places one by one.
interface Places { from?: number; count?: number; at?: number[] }

// A part of the table: of each list one name, or some places, or all.
interface Part {
  person?: string; action?: string; resource?: string; people?: Places; actions?: Places; resources?: Places;
  policy?: string; rule?: string | null; digests?: boolean;
}

interface Rule { path: [string, string, string][]; rule: string | null; cells: number; permits: number }

interface Grant {
  person: string; entries: Entry[]; actions: string[]; resources: string[]; cells: number;
}

// Permits, Denies, not applicable, Indeterminate.
type Counts = [number, number, number, number];

interface Totals { people: Counts[]; actions: Counts[]; resources: Counts[] }

interface Side { action: string; cells: number; resource: string }

interface Conflict { person: string; left: Side; right: Side }

interface Cause { what: any; rule: string | null; path: [string, string, string][]; status: string }

interface CauseCount {
  cause: Cause; cells: number; indeterminate: number; first: { person: string; action: string; resource: string };
}

interface Stored { id: string; kind: string; module: number; reached: boolean; version: string; document?: any }

// The lists of names as of a serial, with the place of each name.
interface Lists {
  people: string[]; actions: string[]; resources: string[]; serial: number;
  places: { people: Map<string, number>; actions: Map<string, number>; resources: Map<string, number> };
}

interface Who { called?: string; name: string; person?: string; roles: string[]; commands: string[] }

// An edit that did something to items of a campaign.
interface ItemEdit { serial: number; time: string; by: string; kind: string; entity: string; unknown?: boolean }

interface SignOff {
  as: 'keep' | 'revoke'; by: string; time: string; serial: number; digest: string; why?: string; from?: string;
}

interface Item {
  item: number; action: string; resource: string; decision: string; obligations?: Given[]; advice?: Given[];
  signed?: SignOff; by?: ItemEdit; back?: boolean; changed?: ItemEdit; last?: string;
}

// Items of one person that the same rules give, in one state.
interface ItemGroup { person: string; why: Entry[]; state: string; reviewer: string; digest: string; items: Item[] }

// A row of a reviewer's list: whose and by which rules it is, the state that is drawn, how many of its acts are on
// their way, and why one wasn't taken.
interface ListRow { key: string; group: ItemGroup; state: string; waits: number; fault: string }

interface ScopePart { names?: string[]; where?: { attribute: string; values: string[] }[] }

interface Definition {
  name: string; scope: { people?: ScopePart; actions?: ScopePart; resources?: ScopePart; decisions?: string[] };
  reviewers: { name?: string; people?: string[]; actions?: string[]; resources?: string[]; person?: string;
    resource?: string }[];
  ends?: string; remind?: string[]; on?: string; after?: string; oldest?: string; self?: boolean;
}

// How far a campaign is.
interface Campaign {
  campaign: Definition; serial: number; time: string; by: string; up_to: number; items: number;
  ended?: { serial: number; time: string; by: string }; states: Record<string, number>;
  reviewers: Record<string, { open: number; fell: number }>; taken?: number; asked?: Record<string, number>;
  fell: (ItemEdit & { items: number })[]; more: boolean;
}

// What an answer rests on.
interface Explained { answer: Answer; causes: Cause[]; facts: any[]; more?: number }

// What is to be revoked and is still there.
interface Task {
  item: number; person: string; action: string; resource: string; signed: SignOff; explain: Explained;
}

// What the open view asked: the path, and what the front says of its answer.
interface Asked { path: string; serial: string; digest: string }

// A sheet of paper: what it shows, and its rows.
interface Sheet { title: string; filter: string[]; heads: string[]; rows: (string | number)[][]; notes?: string[] }

// A view that can be opened.
interface View {
  title: string;
  needs: string[];
  show(place: HTMLElement, query: URLSearchParams, isOpen: () => boolean): Promise<void>;
  told?(changes: Change[], serial: number): void;
  renew?(): void;
  left?(): void;
  sheet?(): Sheet | Promise<Sheet> | null;
}
