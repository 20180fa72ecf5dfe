-- The bank of examples/bank/accepted.cise as functions of PostgreSQL, one database a replica.
DROP TABLE IF EXISTS balances, calls, taken;
CREATE TABLE balances (account text PRIMARY KEY, balance bigint NOT NULL);
CREATE TABLE calls (id text PRIMARY KEY, account text NOT NULL, change bigint NOT NULL);

-- The effect of a call, at each replica that hears of it.
CREATE OR REPLACE FUNCTION take(call text, a text, n bigint) RETURNS text LANGUAGE plpgsql AS $$
BEGIN
  INSERT INTO calls VALUES (call, a, n);
  INSERT INTO balances VALUES (a, n)
    ON CONFLICT (account) DO UPDATE SET balance = balances.balance + excluded.balance;
  RETURN 'ok';
END $$;

CREATE OR REPLACE FUNCTION deposit(call text, a text, n bigint) RETURNS text LANGUAGE plpgsql AS $$
BEGIN
  IF n < 0 THEN RETURN 'refused'; END IF;
  RETURN take(call, a, n);
END $$;

-- `known` are the withdrawals from the account that its grant names: they have to be taken first.
CREATE OR REPLACE FUNCTION withdraw(call text, a text, n bigint, known text[]) RETURNS text LANGUAGE plpgsql AS $$
BEGIN
  IF EXISTS (SELECT FROM unnest(known) AS k(id) WHERE k.id NOT IN (SELECT c.id FROM calls c)) THEN
    RETURN 'waits';
  END IF;
  IF n < 0 OR n > coalesce((SELECT balance FROM balances WHERE account = a), 0) THEN
    RETURN 'refused';
  END IF;
  RETURN take(call, a, - n);
END $$;
