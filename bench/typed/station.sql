-- The station of examples/station in typed tables, for bench/typed to compare with: what does not move. Only rules that moves of
-- trains can break are kept here; `train` (steps.sql, column.sql) refers to a berth by what it needs of it.
PRAGMA foreign_keys = ON;

CREATE TABLE platform (
    id      INTEGER PRIMARY KEY,
    is_long INTEGER NOT NULL CHECK (is_long IN (0, 1)),
    UNIQUE (id, is_long)
);

CREATE TABLE slot (id INTEGER PRIMARY KEY);

CREATE TABLE crew (id INTEGER PRIMARY KEY);

-- rule 4: one platform and one slot; rules 5 and 9: a train may stand at a berth that is open and has a crew
CREATE TABLE berth (
    id       INTEGER PRIMARY KEY,
    platform INTEGER NOT NULL,
    is_long  INTEGER NOT NULL,
    slot     INTEGER NOT NULL REFERENCES slot,
    closed   INTEGER NOT NULL CHECK (closed IN (0, 1)),
    crew     INTEGER REFERENCES crew,
    usable   INTEGER NOT NULL GENERATED ALWAYS AS (NOT closed AND crew IS NOT NULL) STORED,
    FOREIGN KEY (platform, is_long) REFERENCES platform (id, is_long),
    UNIQUE (id, usable),
    UNIQUE (id, is_long)
);

-- rule 8: a pair is kept once, so connections go both ways
CREATE TABLE connects_to (
    first  INTEGER NOT NULL,
    second INTEGER NOT NULL CHECK (first < second),
    PRIMARY KEY (first, second)
) WITHOUT ROWID;
