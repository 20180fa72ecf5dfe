"""A plan as SQL for PostgreSQL: functions that hold a call's locks in one store, and a manager's
tables and functions for many replicas."""
from typing import Any, List

from view.holds import Hold, Plan

HEAD = """\
-- What calls have to hold, as SQL for PostgreSQL. Shown, not proved: it is read off the rules and
-- the takes lines of a specification. Whether they order enough is what `check` says; what it
-- promises has a premise, which the store has to keep.
--
-- Elements are texts; a constant is the text of its name. A lock is a text of JSON with its name
-- and its key.

-- Which kinds in which a lock is held exclude each other at the same key.
CREATE OR REPLACE FUNCTION cise_excludes(one text, other text) RETURNS boolean
LANGUAGE sql IMMUTABLE AS $$
  SELECT (one, other) IN (
    ('exclusive', 'exclusive'), ('exclusive', 'shared'), ('shared', 'exclusive'),
    ('left', 'right'), ('right', 'left'), ('left', 'right shared'), ('right shared', 'left'),
    ('right', 'left shared'), ('left shared', 'right'))
$$;

-- What a call of each operation has to hold.
"""

ONE_STORE = """
-- ONE STORE. A call's transaction begins with `SELECT cise_hold_OPERATION(arguments);`.
-- Its advisory locks end with the transaction. Right under READ COMMITTED, where the next statement
-- reads what committed before the locks were got, and under SERIALIZABLE. Under REPEATABLE READ the
-- snapshot may be older than the locks, so the functions refuse it. The call then asks all that it
-- requires in one statement, which has one snapshot, and writes changes, not values that it read.
-- Where a lock that is held exclusively by its key alone is one row of a table,
-- `SELECT .. FOR UPDATE` of that row in its place does the same.

-- Waits for the calls of the other side that run at this key, and holds its own side until the
-- transaction ends.
CREATE OR REPLACE FUNCTION cise_hold_side(lock_key text, kind text) RETURNS void
LANGUAGE plpgsql AS $$
DECLARE
  other text := CASE WHEN kind LIKE 'left%' THEN 'right' ELSE 'left' END;
  waited bigint[] := ARRAY[
    hashtextextended(lock_key || ' gate', 0), hashtextextended(lock_key || other, 0)];
  got int := 0;
BEGIN
  IF kind NOT LIKE '% shared' THEN
    waited := waited || hashtextextended(lock_key || other || ' shared', 0);
  END IF;
  FOR at IN 1 .. array_length(waited, 1) LOOP
    PERFORM pg_advisory_lock(waited[at]);
    got := at;
  END LOOP;
  PERFORM pg_advisory_xact_lock_shared(hashtextextended(lock_key || kind, 0));
  FOR at IN 1 .. got LOOP
    PERFORM pg_advisory_unlock(waited[at]);
  END LOOP;
EXCEPTION WHEN query_canceled OR OTHERS THEN
  FOR at IN 1 .. got LOOP
    PERFORM pg_advisory_unlock(waited[at]);
  END LOOP;
  RAISE;
END
$$;

-- Holds locks in the order of their numbers, so that no two calls wait for each other.
CREATE OR REPLACE FUNCTION cise_hold(lock_keys text[], kinds text[]) RETURNS void
LANGUAGE plpgsql AS $$
DECLARE
  it record;
BEGIN
  IF current_setting('transaction_isolation') = 'repeatable read' THEN
    RAISE EXCEPTION 'cise_hold: READ COMMITTED is needed'
      USING DETAIL = 'A snapshot of REPEATABLE READ may be older than the locks.';
  END IF;
  FOR it IN
    SELECT DISTINCT hashtextextended(lock_key, 0) AS number, wanted.lock_key, wanted.kind
    FROM unnest(lock_keys, kinds) AS wanted(lock_key, kind) ORDER BY 1, 2, 3
  LOOP
    IF it.kind = 'exclusive' THEN
      PERFORM pg_advisory_xact_lock(it.number);
    ELSIF it.kind = 'shared' THEN
      PERFORM pg_advisory_xact_lock_shared(it.number);
    ELSE
      PERFORM cise_hold_side(it.lock_key, it.kind);
    END IF;
  END LOOP;
END
$$;
"""

REPLICAS = """
-- MANY REPLICAS. A lock isn't enough, since the next holder may not have heard of the last one's
-- call. One database is the manager: a replica asks it, in a transaction of its own, for `SELECT
-- cise_grant_OPERATION(call, arguments);`, where `call` is a text that no other call has. The
-- grant is the list of the calls that were granted before and exclude this one. The call may run
-- at the replica once each of them was taken there, or is void. A call that has a grant and will
-- never run, as when a requires line is false, is void: `SELECT cise_void(call);`.
CREATE TABLE IF NOT EXISTS cise_grants (
  number bigserial PRIMARY KEY, call text NOT NULL UNIQUE,
  is_void boolean NOT NULL DEFAULT false);
CREATE TABLE IF NOT EXISTS cise_granted (
  lock_key text NOT NULL, kind text NOT NULL,
  number bigint NOT NULL REFERENCES cise_grants ON DELETE CASCADE,
  PRIMARY KEY (lock_key, kind, number));

-- Grants a call once, and answers the same grant to whoever asks again; void calls are left out
-- of it.
CREATE OR REPLACE FUNCTION cise_grant(asked text, lock_keys text[], kinds text[]) RETURNS text[]
LANGUAGE plpgsql AS $$
DECLARE
  own bigint;
BEGIN
  IF current_setting('transaction_isolation') <> 'read committed' THEN
    RAISE EXCEPTION 'cise_grant: READ COMMITTED is needed'
      USING DETAIL = 'A snapshot of another level may be older than the last grant.';
  END IF;
  LOCK TABLE cise_grants IN EXCLUSIVE MODE;
  SELECT number INTO own FROM cise_grants WHERE call = asked;
  IF own IS NULL THEN
    INSERT INTO cise_grants (call) VALUES (asked) RETURNING number INTO own;
    INSERT INTO cise_granted SELECT DISTINCT wanted.lock_key, wanted.kind, own
      FROM unnest(lock_keys, kinds) AS wanted(lock_key, kind);
  END IF;
  RETURN ARRAY(
    SELECT before.call FROM cise_grants AS before
    WHERE before.number < own AND NOT before.is_void AND EXISTS (
      SELECT FROM cise_granted AS theirs JOIN cise_granted AS ours USING (lock_key)
      WHERE theirs.number = before.number AND ours.number = own
        AND cise_excludes(theirs.kind, ours.kind))
    ORDER BY before.number);
END
$$;

-- Says that a call will never run.
CREATE OR REPLACE FUNCTION cise_void(granted text) RETURNS void LANGUAGE sql AS $$
  UPDATE cise_grants SET is_void = true WHERE call = granted
$$;

-- Forgets a call that every replica has taken, or knows as void, so that the table stays small.
-- Never before.
CREATE OR REPLACE FUNCTION cise_forget(granted text) RETURNS void LANGUAGE sql AS $$
  DELETE FROM cise_grants WHERE call = granted
$$;
"""


def name(text: str) -> str:
    """A name as SQL has it."""
    return f'"{text}"'


def literal(text: str) -> str:
    """A text as SQL has it."""
    return "'" + text.replace("'", "''") + "'"


def sql(spec: Any, plan: Plan) -> str:
    """The SQL of a plan, which may be run again where it was run before."""
    parts = [HEAD]
    parts += [wanted(spec, str(it), plan.holds[it]) for it in spec.operations]
    parts.append(ONE_STORE)
    parts += [function(spec, str(it), "hold", [], "void", "cise_hold") for it in spec.operations]
    parts.append(REPLICAS)
    parts += [
        function(spec, str(it), "grant", ["text"], "text[]", "cise_grant") for it in spec.operations
    ]
    return "\n".join(parts)


def types_of(spec: Any, operation: str) -> List[str]:
    """The SQL types of an operation's parameters."""
    return ["bigint" if kind == "int" else "text" for _, kind in spec.operations[operation].params]


def wanted(spec: Any, operation: str, holds: List[Hold]) -> str:
    """The function that says what a call of an operation has to hold."""
    params = [
        f"{name(str(it))} {kind}"
        for (it, _), kind in zip(spec.operations[operation].params, types_of(spec, operation))
    ]
    places = {str(it): f"${at}" for at, (it, _) in enumerate(spec.operations[operation].params, 1)}

    def argument(text: str) -> str:
        return places.get(text) or literal(text) + "::text"

    rows = []
    for it in holds:
        parts = ", ".join([literal(it.lock) + "::text", *map(argument, it.key)])
        key = f"json_build_array({parts})::text"
        where = " AND ".join(f"{argument(a)} = {argument(b)}" for a, b in it.where) or "true"
        rows.append(f"  SELECT {key}, {literal(it.kind)}::text WHERE {where}")
    body = "\n  UNION ALL\n".join(rows) or "  SELECT ''::text, ''::text WHERE false"
    head = f"CREATE OR REPLACE FUNCTION {name('cise_wants_' + operation)}({', '.join(params)})"
    return f"{head} RETURNS TABLE (lock_key text, kind text) LANGUAGE sql AS $$\n{body}\n$$;\n"


def function(
    spec: Any, operation: str, verb: str, before: List[str], result: str, helper: str
) -> str:
    """The function of an operation that hands what its call has to hold to `cise_hold` or to
    `cise_grant`."""
    types = before + types_of(spec, operation)
    own = [f"${at}" for at in range(1, len(types) + 1)]
    asked = f"{name('cise_wants_' + operation)}({', '.join(own[len(before):])})"
    given = [
        *own[: len(before)],
        f"ARRAY(SELECT lock_key FROM {asked})",
        f"ARRAY(SELECT kind FROM {asked})",
    ]
    head = f"CREATE OR REPLACE FUNCTION {name(f'cise_{verb}_{operation}')}({', '.join(types)})"
    return (
        f"{head} RETURNS {result} LANGUAGE sql AS $$\n  SELECT {helper}({', '.join(given)})\n$$;\n"
    )
