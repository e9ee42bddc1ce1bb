-- The warehouse: copies of compared books for reading, and views with exact indices. docs/operate/WAREHOUSE.md says how it is used.
-- Every table's key begins with the period and the district, so that any of them can be partitioned by these.
CREATE SCHEMA outagebook;

CREATE TABLE outagebook.version (version integer NOT NULL);
INSERT INTO outagebook.version VALUES (2);

CREATE TABLE outagebook.period (
    period_id integer GENERATED ALWAYS AS IDENTITY PRIMARY KEY,
    first_day date NOT NULL,
    days integer NOT NULL,
    zone text NOT NULL,
    seconds bigint NOT NULL,  -- P
    UNIQUE (first_day, days, zone)
);

CREATE TABLE outagebook.book (
    period_id integer NOT NULL REFERENCES outagebook.period,
    district text NOT NULL,
    commands integer NOT NULL,
    digest text NOT NULL,  -- of the commands' references and texts
    served_seconds bigint NOT NULL,  -- S
    customer_seconds bigint NOT NULL,  -- W
    loaded timestamptz NOT NULL DEFAULT now(),
    PRIMARY KEY (period_id, district)
);

CREATE TABLE outagebook.counts (
    period_id integer NOT NULL,
    district text NOT NULL,
    "set" text NOT NULL CHECK ("set" IN ('all', 'unmarked')),
    sustained bigint NOT NULL,  -- CI
    sustained_seconds bigint NOT NULL,  -- CSI
    momentary bigint NOT NULL,  -- MI
    customer_seconds bigint NOT NULL,  -- of the set's interruptions: of all, W
    with_some bigint[] NOT NULL CHECK (cardinality(with_some) = 10),  -- CN_1 to CN_10
    PRIMARY KEY (period_id, district, "set"),
    FOREIGN KEY (period_id, district) REFERENCES outagebook.book ON DELETE CASCADE
);

CREATE TABLE outagebook.cause (
    period_id integer NOT NULL,
    district text NOT NULL,
    code smallint NOT NULL,
    name text NOT NULL,
    customer_seconds bigint NOT NULL,
    PRIMARY KEY (period_id, district, code),
    FOREIGN KEY (period_id, district) REFERENCES outagebook.book ON DELETE CASCADE
);

CREATE TABLE outagebook.feeder (
    period_id integer NOT NULL,
    district text NOT NULL,
    feeder smallint NOT NULL,
    customer_seconds bigint NOT NULL,
    PRIMARY KEY (period_id, district, feeder),
    FOREIGN KEY (period_id, district) REFERENCES outagebook.book ON DELETE CASCADE
);

CREATE TABLE outagebook.section (
    period_id integer NOT NULL,
    district text NOT NULL,
    section integer NOT NULL,
    name text NOT NULL,
    feeder smallint NOT NULL,
    PRIMARY KEY (period_id, district, section),
    FOREIGN KEY (period_id, district) REFERENCES outagebook.book ON DELETE CASCADE
);

CREATE TABLE outagebook.day (
    period_id integer NOT NULL,
    district text NOT NULL,
    day date NOT NULL,
    seconds integer NOT NULL,  -- how long the day is
    customer_seconds bigint NOT NULL,  -- those that fall on it
    unmarked_seconds bigint NOT NULL,  -- of these, those of unmarked interruptions
    served_seconds bigint NOT NULL,
    engineer text,  -- who marked it
    PRIMARY KEY (period_id, district, day),
    FOREIGN KEY (period_id, district) REFERENCES outagebook.book ON DELETE CASCADE
);

CREATE TABLE outagebook.served_day (
    period_id integer NOT NULL,
    district text NOT NULL,
    feeder smallint NOT NULL,
    day date NOT NULL,
    served_seconds bigint NOT NULL,
    PRIMARY KEY (period_id, district, feeder, day),
    FOREIGN KEY (period_id, district) REFERENCES outagebook.book ON DELETE CASCADE
);

CREATE TABLE outagebook.served_month (
    period_id integer NOT NULL,
    district text NOT NULL,
    section integer NOT NULL,
    month date NOT NULL,  -- its first day
    served_seconds bigint NOT NULL,
    PRIMARY KEY (period_id, district, section, month),
    FOREIGN KEY (period_id, district) REFERENCES outagebook.book ON DELETE CASCADE
);

CREATE TABLE outagebook.interruption (
    period_id integer NOT NULL,
    district text NOT NULL,
    number integer NOT NULL,
    section integer NOT NULL,
    cause smallint NOT NULL,
    device text,  -- whose switching cut the section off
    since bigint NOT NULL,  -- Unix seconds
    until bigint NOT NULL,
    day date NOT NULL,  -- on which it begins
    customers integer NOT NULL,
    marked boolean NOT NULL,  -- it begins on a marked day
    seconds bigint NOT NULL GENERATED ALWAYS AS (until - since) STORED,
    sustained boolean NOT NULL GENERATED ALWAYS AS (until - since > 300) STORED,
    PRIMARY KEY (period_id, district, number),
    FOREIGN KEY (period_id, district) REFERENCES outagebook.book ON DELETE CASCADE
);
CREATE INDEX interruption_day ON outagebook.interruption (day);

-- Exact fractions.

CREATE FUNCTION outagebook.fraction(numerator numeric, denominator numeric) RETURNS text
LANGUAGE sql IMMUTABLE PARALLEL SAFE AS $$
    SELECT CASE WHEN denominator = 0 OR denominator IS NULL THEN 'undefined'
        ELSE div(numerator, gcd(numerator, denominator)) || '/' || div(denominator, gcd(numerator, denominator)) END
$$;

CREATE FUNCTION outagebook.decimals(numerator numeric, denominator numeric) RETURNS numeric
LANGUAGE sql IMMUTABLE PARALLEL SAFE AS $$
    SELECT CASE WHEN denominator > 0 THEN div(2000 * numerator + denominator, 2 * denominator) * 0.001 END
$$;

-- SAIFI, SAIDI and CAIDI, by CI, CSI, S and P.
CREATE FUNCTION outagebook.indices(
    sustained numeric, sustained_seconds numeric, served_seconds numeric, seconds numeric,
    OUT saifi text, OUT saifi_3 numeric, OUT saidi text, OUT saidi_3 numeric, OUT caidi text, OUT caidi_3 numeric
) LANGUAGE sql IMMUTABLE PARALLEL SAFE AS $$
    SELECT
        outagebook.fraction(sustained * seconds, served_seconds),
        outagebook.decimals(sustained * seconds, served_seconds),
        outagebook.fraction(sustained_seconds * seconds, 60 * served_seconds),
        outagebook.decimals(sustained_seconds * seconds, 60 * served_seconds),
        outagebook.fraction(sustained_seconds, 60 * sustained),
        outagebook.decimals(sustained_seconds, 60 * sustained)
$$;

CREATE VIEW outagebook.sets ("set") AS VALUES ('all'), ('unmarked');

-- Each interruption in the sets that it is of. The views below put such rows below those of what was served, and add up:
-- without a join between sums, each costs one reading of its rows, whatever the planner takes their numbers to be.
CREATE VIEW outagebook.counted AS
SELECT i.period_id, i.district, k."set", i.section, i.cause, i.day,
    CASE WHEN i.sustained THEN i.customers::bigint ELSE 0 END AS sustained,
    CASE WHEN i.sustained THEN 0 ELSE i.customers::bigint END AS momentary,
    CASE WHEN i.sustained THEN i.customers * i.seconds ELSE 0 END AS sustained_seconds,
    i.customers * i.seconds AS customer_seconds
FROM outagebook.interruption AS i
JOIN outagebook.sets AS k ON k."set" = 'all' OR NOT i.marked;

-- Whole books: the fifteen quotients of the annual table.

CREATE FUNCTION outagebook.whole_indices(
    sustained numeric, sustained_seconds numeric, with_some numeric[], served_seconds numeric, seconds numeric,
    OUT caifi text, OUT caifi_3 numeric, OUT asai text, OUT asai_3 numeric, OUT cemi text[], OUT cemi_3 numeric[]
) LANGUAGE sql IMMUTABLE PARALLEL SAFE AS $$
    SELECT
        outagebook.fraction(sustained, with_some[1]),
        outagebook.decimals(sustained, with_some[1]),
        outagebook.fraction(served_seconds - sustained_seconds, served_seconds),
        outagebook.decimals(served_seconds - sustained_seconds, served_seconds),
        (SELECT array_agg(outagebook.fraction(n * seconds, served_seconds) ORDER BY place)
            FROM unnest(with_some) WITH ORDINALITY AS u (n, place)),
        (SELECT array_agg(outagebook.decimals(n * seconds, served_seconds) ORDER BY place)
            FROM unnest(with_some) WITH ORDINALITY AS u (n, place))
$$;

CREATE VIEW outagebook.district AS
SELECT p.first_day, p.days, p.zone, b.district, c."set", b.commands, c.customer_seconds,
    outagebook.fraction(b.served_seconds, p.seconds) AS customers_served,
    outagebook.decimals(b.served_seconds, p.seconds) AS customers_served_3,
    c.sustained, c.momentary, c.sustained_seconds, i.*, w.*
FROM outagebook.book AS b
JOIN outagebook.period AS p USING (period_id)
JOIN outagebook.counts AS c USING (period_id, district)
CROSS JOIN LATERAL outagebook.indices(c.sustained, c.sustained_seconds, b.served_seconds, p.seconds) AS i
CROSS JOIN LATERAL outagebook.whole_indices(
    c.sustained, c.sustained_seconds, c.with_some::numeric[], b.served_seconds, p.seconds) AS w;

CREATE VIEW outagebook.company AS
SELECT p.first_day, p.days, p.zone, t."set", t.districts, t.commands, t.customer_seconds,
    outagebook.fraction(t.served_seconds, p.seconds) AS customers_served,
    outagebook.decimals(t.served_seconds, p.seconds) AS customers_served_3,
    t.sustained, t.momentary, t.sustained_seconds, i.*, w.*
FROM (
    SELECT b.period_id, c."set", count(*) AS districts, sum(b.commands) AS commands,
        sum(c.customer_seconds) AS customer_seconds, sum(b.served_seconds) AS served_seconds,
        sum(c.sustained) AS sustained, sum(c.momentary) AS momentary, sum(c.sustained_seconds) AS sustained_seconds,
        ARRAY[sum(c.with_some[1]), sum(c.with_some[2]), sum(c.with_some[3]), sum(c.with_some[4]),
            sum(c.with_some[5]), sum(c.with_some[6]), sum(c.with_some[7]), sum(c.with_some[8]),
            sum(c.with_some[9]), sum(c.with_some[10])] AS with_some
    FROM outagebook.book AS b JOIN outagebook.counts AS c USING (period_id, district)
    GROUP BY b.period_id, c."set"
) AS t
JOIN outagebook.period AS p USING (period_id)
CROSS JOIN LATERAL outagebook.indices(t.sustained, t.sustained_seconds, t.served_seconds, p.seconds) AS i
CROSS JOIN LATERAL outagebook.whole_indices(
    t.sustained, t.sustained_seconds, t.with_some, t.served_seconds, p.seconds) AS w;

-- Parts of books: SAIFI, SAIDI and CAIDI over the customers served of the part.

CREATE VIEW outagebook.feeders AS
SELECT p.first_day, p.days, p.zone, a.district, a.feeder, a."set", a.customer_seconds,
    outagebook.fraction(a.served_seconds, p.seconds) AS customers_served,
    outagebook.decimals(a.served_seconds, p.seconds) AS customers_served_3,
    a.sustained, a.momentary, a.sustained_seconds, i.*
FROM (
    SELECT period_id, district, feeder, "set", sum(served_seconds) AS served_seconds, sum(sustained) AS sustained,
        sum(momentary) AS momentary, sum(sustained_seconds) AS sustained_seconds, sum(customer_seconds) AS customer_seconds
    FROM (
        SELECT s.period_id, s.district, s.feeder, k."set", s.served_seconds, 0::bigint AS sustained,
            0::bigint AS momentary, 0::bigint AS sustained_seconds, 0::bigint AS customer_seconds
        FROM outagebook.served_day AS s CROSS JOIN outagebook.sets AS k
        UNION ALL
        SELECT c.period_id, c.district, n.feeder, c."set", 0, c.sustained, c.momentary, c.sustained_seconds, c.customer_seconds
        FROM outagebook.counted AS c JOIN outagebook.section AS n USING (period_id, district, section)
    ) AS u GROUP BY period_id, district, feeder, "set"
) AS a
JOIN outagebook.period AS p USING (period_id)
CROSS JOIN LATERAL outagebook.indices(a.sustained, a.sustained_seconds, a.served_seconds, p.seconds) AS i;

CREATE VIEW outagebook.sections AS
SELECT p.first_day, p.days, p.zone, a.district, n.name AS section, n.feeder, a."set",
    outagebook.fraction(a.served_seconds, p.seconds) AS customers_served,
    outagebook.decimals(a.served_seconds, p.seconds) AS customers_served_3,
    a.customer_seconds, a.sustained, a.momentary, a.sustained_seconds, i.*
FROM (
    SELECT period_id, district, section, "set", sum(served_seconds) AS served_seconds, sum(sustained) AS sustained,
        sum(momentary) AS momentary, sum(sustained_seconds) AS sustained_seconds, sum(customer_seconds) AS customer_seconds
    FROM (
        SELECT s.period_id, s.district, s.section, k."set", s.served_seconds, 0::bigint AS sustained,
            0::bigint AS momentary, 0::bigint AS sustained_seconds, 0::bigint AS customer_seconds
        FROM outagebook.served_month AS s CROSS JOIN outagebook.sets AS k
        UNION ALL
        SELECT period_id, district, section, "set", 0, sustained, momentary, sustained_seconds, customer_seconds
        FROM outagebook.counted
    ) AS u GROUP BY period_id, district, section, "set"
) AS a
JOIN outagebook.section AS n USING (period_id, district, section)
JOIN outagebook.period AS p USING (period_id)
CROSS JOIN LATERAL outagebook.indices(a.sustained, a.sustained_seconds, a.served_seconds, p.seconds) AS i;

-- Days in both sets: what was served and what fell on them, and what began on them. An interruption counts whole where it
-- begins; customer_seconds are those that lie in the day.
CREATE VIEW outagebook.day_counts AS
SELECT d.period_id, d.district, d.day, k."set", d.seconds::bigint AS seconds, d.served_seconds,
    CASE k."set" WHEN 'all' THEN d.customer_seconds ELSE d.unmarked_seconds END AS customer_seconds,
    0::bigint AS sustained, 0::bigint AS momentary, 0::bigint AS sustained_seconds, d.engineer
FROM outagebook.day AS d CROSS JOIN outagebook.sets AS k
UNION ALL
SELECT period_id, district, day, "set", 0, 0, 0, sustained, momentary, sustained_seconds, NULL
FROM outagebook.counted;

CREATE VIEW outagebook.month_counts AS
SELECT period_id, district, date_trunc('month', day)::date AS month, "set", sum(seconds) AS seconds,
    sum(served_seconds) AS served_seconds, sum(customer_seconds) AS customer_seconds, sum(sustained) AS sustained,
    sum(momentary) AS momentary, sum(sustained_seconds) AS sustained_seconds
FROM outagebook.day_counts GROUP BY 1, 2, 3, 4;

CREATE VIEW outagebook.district_months AS
SELECT p.first_day, p.days, p.zone, a.district, a.month, a."set", a.customer_seconds,
    outagebook.fraction(a.served_seconds, a.seconds) AS customers_served,
    outagebook.decimals(a.served_seconds, a.seconds) AS customers_served_3,
    a.sustained, a.momentary, a.sustained_seconds, i.*
FROM outagebook.month_counts AS a
JOIN outagebook.period AS p USING (period_id)
CROSS JOIN LATERAL outagebook.indices(a.sustained, a.sustained_seconds, a.served_seconds, a.seconds) AS i;

-- Months of all districts.
CREATE VIEW outagebook.months AS
SELECT p.first_day, p.days, p.zone, a.month, a."set", a.districts, a.customer_seconds,
    outagebook.fraction(a.served_seconds, a.seconds) AS customers_served,
    outagebook.decimals(a.served_seconds, a.seconds) AS customers_served_3,
    a.sustained, a.momentary, a.sustained_seconds, i.*
FROM (
    SELECT period_id, month, "set", count(*) AS districts, min(seconds) AS seconds,
        sum(served_seconds) AS served_seconds, sum(customer_seconds) AS customer_seconds, sum(sustained) AS sustained,
        sum(momentary) AS momentary, sum(sustained_seconds) AS sustained_seconds
    FROM outagebook.month_counts GROUP BY period_id, month, "set"
) AS a
JOIN outagebook.period AS p USING (period_id)
CROSS JOIN LATERAL outagebook.indices(a.sustained, a.sustained_seconds, a.served_seconds, a.seconds) AS i;

-- The days from one to another: those of each period that lie between them, a row a period, all districts added up.
CREATE FUNCTION outagebook.between(from_day date, to_day date) RETURNS TABLE (
    first_day date, days integer, zone text, since date, until date, "set" text, districts bigint, seconds numeric,
    customer_seconds numeric, customers_served text, customers_served_3 numeric, sustained numeric, momentary numeric,
    sustained_seconds numeric, saifi text, saifi_3 numeric, saidi text, saidi_3 numeric, caidi text, caidi_3 numeric
) LANGUAGE sql STABLE AS $$
    SELECT p.first_day, p.days, p.zone, a.since, a.until, a."set", a.districts, a.seconds, a.customer_seconds,
        outagebook.fraction(a.served_seconds, a.seconds), outagebook.decimals(a.served_seconds, a.seconds),
        a.sustained, a.momentary, a.sustained_seconds, i.*
    FROM (
        SELECT e.period_id, e."set", min(e.since) AS since, max(e.until) AS until, count(*) AS districts,
            min(e.seconds) AS seconds, sum(e.served_seconds) AS served_seconds,
            sum(e.customer_seconds) AS customer_seconds, sum(e.sustained) AS sustained, sum(e.momentary) AS momentary,
            sum(e.sustained_seconds) AS sustained_seconds
        FROM (
            SELECT c.period_id, c.district, c."set", min(c.day) AS since, max(c.day) AS until, sum(c.seconds) AS seconds,
                sum(c.served_seconds) AS served_seconds, sum(c.customer_seconds) AS customer_seconds,
                sum(c.sustained) AS sustained, sum(c.momentary) AS momentary, sum(c.sustained_seconds) AS sustained_seconds
            FROM outagebook.day_counts AS c WHERE c.day BETWEEN from_day AND to_day
            GROUP BY c.period_id, c.district, c."set"
        ) AS e GROUP BY e.period_id, e."set"
    ) AS a
    JOIN outagebook.period AS p USING (period_id)
    CROSS JOIN LATERAL outagebook.indices(a.sustained, a.sustained_seconds, a.served_seconds, a.seconds) AS i
$$;

-- Causes by their names, of all districts: their parts of the company's SAIFI and SAIDI add up to it.
CREATE VIEW outagebook.causes AS
SELECT p.first_day, p.days, p.zone, a.name AS cause, a."set", a.customer_seconds, a.sustained, a.momentary,
    a.sustained_seconds, i.*
FROM (
    SELECT period_id, name, "set", sum(sustained) AS sustained, sum(momentary) AS momentary,
        sum(sustained_seconds) AS sustained_seconds, sum(customer_seconds) AS customer_seconds
    FROM (
        SELECT n.period_id, n.name, k."set", 0::bigint AS sustained, 0::bigint AS momentary,
            0::bigint AS sustained_seconds, 0::bigint AS customer_seconds
        FROM outagebook.cause AS n CROSS JOIN outagebook.sets AS k
        UNION ALL
        SELECT c.period_id, n.name, c."set", c.sustained, c.momentary, c.sustained_seconds, c.customer_seconds
        FROM outagebook.counted AS c JOIN outagebook.cause AS n
            ON n.period_id = c.period_id AND n.district = c.district AND n.code = c.cause
    ) AS u GROUP BY period_id, name, "set"
) AS a
JOIN outagebook.period AS p USING (period_id)
JOIN (
    SELECT period_id, sum(served_seconds) AS served_seconds FROM outagebook.book GROUP BY period_id
) AS b USING (period_id)
CROSS JOIN LATERAL outagebook.indices(a.sustained, a.sustained_seconds, b.served_seconds, p.seconds) AS i;

-- Days of all districts: what fell on each, and the standard's daily SAIDI.
CREATE VIEW outagebook.days AS
SELECT p.first_day, p.days, p.zone, a.day, a.customer_seconds, a.marked_in, a.sustained, a.sustained_seconds,
    outagebook.fraction(a.sustained_seconds * p.seconds, 60 * b.served_seconds) AS daily_saidi,
    outagebook.decimals(a.sustained_seconds * p.seconds, 60 * b.served_seconds) AS daily_saidi_3
FROM (
    SELECT period_id, day, sum(customer_seconds) AS customer_seconds, sum(sustained) AS sustained,
        sum(sustained_seconds) AS sustained_seconds,
        coalesce(array_agg(district ORDER BY district) FILTER (WHERE engineer IS NOT NULL), '{}') AS marked_in
    FROM outagebook.day_counts WHERE "set" = 'all' GROUP BY period_id, day
) AS a
JOIN outagebook.period AS p USING (period_id)
JOIN (
    SELECT period_id, sum(served_seconds) AS served_seconds FROM outagebook.book GROUP BY period_id
) AS b USING (period_id);
